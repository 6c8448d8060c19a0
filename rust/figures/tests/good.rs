//! Files that are answered.

mod common;

use common::{WCA, command, example, figures, run, temporary};

#[test]
fn every_example_is_answered() {
    for (name, perturbation) in
        [("bh", "BH"), ("wca", "WCA"), ("wca-b3", "WCA-B3")].map(|(file, name)| (file, name))
    {
        let file = example(&format!("argon-methane-{name}.txt"));
        let result = run(command().arg(file), b"");
        assert_eq!((result.status, result.stderr.as_str()), (Some(0), ""));
        assert!(result.stdout.starts_with(&format!("{perturbation} at 293.15 K;")));
        for energy in ["hard sphere", "reference", "attractive"] {
            assert!(result.stdout.lines().any(|line| line.starts_with(energy)));
        }
    }
}

/// Each printed line says what it must: the figures before the bar are those of both ends.
#[test]
fn the_bar_stands_where_the_ends_part() {
    let result = figures(WCA, &["--sweep", "density", "0.0001", "0.02", "50"]);
    let mut seen = 0;
    for line in result.stdout.lines().filter(|line| line.contains('|')) {
        let line = line.replacen("hard sphere", "hard-sphere", 1);
        let words: Vec<&str> = line.split_whitespace().collect();
        let [_, figures, value, lower, upper, _] = words[..] else { panic!("{line}") };
        let certain = value.split('|').next().unwrap();
        let power = |text: &str| text.split_once('e').map(|(_, power)| power.to_owned());
        assert_eq!([power(lower), power(upper)], [power(value), power(value)]);
        assert!(lower.starts_with(certain) && upper.starts_with(certain), "{line}");
        let digits = certain.trim_start_matches(['-', '0', '.']).replace('.', "");
        assert_eq!(digits.len().to_string(), figures);
        seen += 1;
    }
    assert_eq!(seen, 3 * 51);
}

#[test]
fn densities_of_the_substances_are_the_same_case() {
    let partial = WCA
        .replace("density_per_cubic_angstrom = 0.005", "density_per_cubic_angstrom argon = 0.004")
        .replace("fraction argon = 0.8", "density_per_cubic_angstrom methane = 0.001")
        .replace("fraction methane = 0.2", "");
    let result = figures(&partial, &[]);
    assert_eq!(result.status, Some(0), "{}", result.stderr);
    assert_eq!(result.stdout, figures(WCA, &[]).stdout);
}

#[test]
fn a_pair_without_a_constant_has_zero() {
    let without = WCA.replace("k_ij argon methane = 0.01", "");
    let zero = WCA.replace("k_ij argon methane = 0.01", "k_ij methane argon = 0");
    let result = figures(&without, &[]);
    assert_eq!(result.status, Some(0));
    assert_eq!(result.stdout, figures(&zero, &[]).stdout);
    assert_ne!(result.stdout, figures(WCA, &[]).stdout);
}

#[test]
fn comments_ends_of_lines_and_order_do_not_matter() {
    let expected = figures(WCA, &[]).stdout;
    assert_eq!(figures(&WCA.replace('\n', "\r\n"), &[]).stdout, expected);
    assert_eq!(figures(&format!("\u{feff}{WCA}"), &[]).stdout, expected);
    let tail = WCA.find("temperature_kelvin").unwrap();
    assert_eq!(figures(&format!("{}\n{}", &WCA[tail..], &WCA[..tail]), &[]).stdout, expected);
}

#[test]
fn a_pure_substance_needs_no_fraction() {
    let pure = "perturbation = BH\nsubstance argon\nrep = 12.26\natt = 6\nsigma_angstrom = 3.404\n\
                epsilon_k_kelvin = 117.84\ntemperature_kelvin = 300\ndensity_per_cubic_angstrom = 0";
    let result = figures(pure, &[]);
    assert_eq!(result.status, Some(0), "{}", result.stderr);
    // Nothing is rounded where there is nothing.
    assert!(result.stdout.contains("hard sphere      all  0  "));
}

#[test]
fn records_are_written_for_the_programs() {
    let file = temporary("records");
    let result =
        run(command().arg(example("argon-methane-bh.txt")).arg("--records").arg(&file), b"");
    assert_eq!(result.status, Some(0));
    let records = std::fs::read(&file).unwrap();
    assert_eq!((records.len(), &records[..5]), (117, &[0, 115, 1, 0, 2][..]));
    let sweep = ["--sweep", "temperature", "300", "400", "9"];
    run(
        command().arg(example("argon-methane-bh.txt")).args(sweep).arg("--records").arg(&file),
        b"",
    );
    assert_eq!(std::fs::read(&file).unwrap().len(), 1170);
}

#[test]
fn an_l_ij_is_answered_and_written_in_version_2() {
    let with = |l_ij: &str| {
        let line = format!("k_ij argon methane = 0.01\nl_ij methane argon = {l_ij}");
        WCA.replacen("k_ij argon methane = 0.01", &line, 1)
    };
    let written = |l_ij: &str| {
        let file = temporary("records-of-l_ij");
        let result = figures(&with(l_ij), &["--records", file.to_str().unwrap()]);
        assert_eq!(result.status, Some(0), "{}", result.stderr);
        (result.stdout, std::fs::read(&file).unwrap())
    };
    let (without, (zero, minus_zero)) = (figures(WCA, &[]).stdout, (written("0"), written("-0")));
    assert_eq!((zero.0.as_str(), minus_zero.0.as_str()), (without.as_str(), without.as_str()));
    assert_eq!([zero.1.len(), minus_zero.1.len()], [117, 125]);
    let (printed, record) = written("0.02");
    assert_ne!(printed, without);
    assert_eq!((record.len(), &record[..5]), (125, &[0, 123, 2, 1, 2][..]));
    assert_eq!(record[77..85], 0.02_f64.to_be_bytes());
}

#[test]
fn help_and_version() {
    let help = run(command().arg("--help"), b"");
    assert_eq!(help.status, Some(0));
    assert!(help.stdout.contains("--sweep density FROM TO STEPS"));
    assert!(help.stdout.contains("--pressure "));
    assert!(run(command().arg("--version"), b"").stdout.starts_with("figures 0."));
}
