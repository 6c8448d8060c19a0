//! Bad input of every kind: a clear message with the line at fault, and a status other than 0.

mod common;

use common::{WCA, command, figures, run, temporary};

/// The example with one text in the place of another.
fn changed(from: &str, to: &str) -> String {
    assert!(WCA.contains(from), "{from}");
    WCA.replacen(from, to, 1)
}

/// The line of the example that begins so, counted from 1.
fn line_of(start: &str) -> usize {
    1 + WCA.lines().position(|line| line.trim_start().starts_with(start)).unwrap()
}

#[track_caller]
fn refused(text: &str, status: i32, line: usize, message: &str) {
    let result = figures(text, &[]);
    let place = format!("figures: standard input:{line}: ");
    assert_eq!(result.status, Some(status), "{}", result.stderr);
    assert!(result.stderr.starts_with(&place), "{place}\n{}", result.stderr);
    assert!(result.stderr.contains(message), "{message}\n{}", result.stderr);
    assert_eq!(result.stdout, "");
}

#[test]
fn lines_that_are_not_understood() {
    let line = line_of("sigma_angstrom");
    let sigma = |text| changed("sigma_angstrom = 3.404", text);
    refused(
        &sigma("sigma = 3.404"),
        2,
        line,
        "there is no key 'sigma'; did you mean sigma_angstrom?",
    );
    refused(&sigma("colour = 3"), 2, line, "there is no key 'colour'; the keys are perturbation, ");
    refused(&sigma("sigma_angstrom 3.404"), 2, line, "is written: sigma_angstrom = NUMBER");
    refused(&sigma("sigma_angstrom argon = 3.404"), 2, line, "is written: sigma_angstrom = NUMBER");
    refused(&sigma("sigma_angstrom ="), 2, line, "there is no value behind the equals sign");
    refused(&sigma("= 3.404"), 2, line, "there is no key before the equals sign");
    refused(&sigma("sigma_angstrom = 3.404 m"), 2, line, "'m' behind the value is not understood");
    refused(&changed("substance argon", "substance"), 2, 4, "is written: substance NAME");
    refused(&changed("substance argon", "substance = argon"), 2, 4, "is written: substance NAME");
    let line = line_of("fraction argon");
    refused(&changed("fraction argon", "fraction"), 2, line, "is written: fraction NAME = NUMBER");
}

#[test]
fn numbers_that_are_none() {
    let line = line_of("temperature_kelvin");
    let temperature = |text: &str| changed("293.15", text);
    refused(&temperature("warm"), 2, line, "'warm' is not a number");
    refused(&temperature("293,15"), 2, line, "the decimal sign is a point");
    refused(&temperature("nan"), 2, line, "'nan' is not a number");
    refused(&temperature("inf"), 2, line, "'inf' is not a number");
    refused(&temperature("1e999"), 2, line, "'1e999' is too large for a double");
    refused(&temperature("--3"), 2, line, "'--3' is not a number");
}

#[test]
fn what_is_missing() {
    let end = WCA.lines().count();
    let without = |start: &str| {
        let keep = |line: &&str| !line.trim_start().starts_with(start);
        WCA.lines().filter(keep).collect::<Vec<_>>().join("\n")
    };
    refused(&without("temperature"), 2, end - 1, "temperature_kelvin is missing");
    refused(&without("perturbation"), 2, end - 1, "perturbation is missing");
    refused(&without("density"), 2, end - 1, "density_per_cubic_angstrom is missing");
    refused(
        &changed("    rep = 12.65\n", ""),
        2,
        line_of("substance methane"),
        "methane has no rep",
    );
    refused(
        &without("fraction methane"),
        2,
        line_of("substance methane"),
        "methane has no fraction",
    );
    refused("perturbation = BH", 2, 1, "the file has no substance");
    refused("", 2, 1, "perturbation is missing");
}

#[test]
fn what_is_given_twice() {
    let twice = |text: &str| format!("{WCA}{text}\n");
    let line = WCA.lines().count() + 1;
    let refused = |text: &str, message: &str| refused(&twice(text), 2, line, message);
    refused("temperature_kelvin = 3", "temperature_kelvin was given in line");
    refused("perturbation = BH", "perturbation was given in line 2 already");
    refused("substance argon", "substance argon was given in line 4 already");
    refused("rep = 12", "rep of methane was given in line");
    refused("k_ij methane argon = 0", "k_ij of methane and argon was given in line");
    refused("fraction argon = 0.8", "fraction of argon was given in line");
    refused("density_per_cubic_angstrom = 1", "was given in line");
    refused("density_per_cubic_angstrom argon = 1", "exclude each other");
}

#[test]
fn names_that_do_not_fit() {
    let line = line_of("k_ij");
    refused(
        &changed("k_ij argon methane", "k_ij argon neon"),
        2,
        line,
        "there is no substance neon",
    );
    refused(
        &changed("k_ij argon methane", "k_ij argon argon"),
        2,
        line,
        "two different substances",
    );
    let line = line_of("fraction argon");
    refused(&changed("fraction argon", "fraction neon"), 2, line, "there is no substance neon");
    refused(&changed("= WCA", "= wca"), 2, 2, "the perturbation is BH, WCA or WCA-B3, not 'wca'");
    let before = format!("rep = 12\n{WCA}");
    refused(&before, 2, 1, "rep stands before the first substance");
}

#[test]
fn an_l_ij_that_does_not_fit() {
    let line = line_of("k_ij");
    let l_ij = |text: &str| changed("k_ij argon methane = 0.01", text);
    refused(&l_ij("l_ij argon = 0.01"), 2, line, "is written: l_ij NAME NAME = NUMBER");
    refused(&l_ij("l_ij argon neon = 0.01"), 2, line, "there is no substance neon");
    refused(&l_ij("l_ij argon argon = 0.01"), 2, line, "l_ij is for two different substances");
    let message = format!("l_ij of methane and argon was given in line {line} already");
    let twice = "l_ij argon methane = 0\nl_ij methane argon = 0";
    refused(&l_ij(twice), 2, line + 1, &message);
    let message =
        "l_ij of argon and methane is 0.6, and must be from -0.5 to 0.5. Refused (code 7).";
    refused(&l_ij("l_ij methane argon = 0.6"), 1, line, message);
}

#[test]
fn densities_that_do_not_fit() {
    let partial =
        changed("density_per_cubic_angstrom = 0.005", "density_per_cubic_angstrom argon = 0.004");
    refused(&partial, 2, line_of("fraction argon"), "fractions go with a total density");
    let tail = WCA.find("density_per_cubic_angstrom = ").unwrap();
    let zero = "density_per_cubic_angstrom argon = 0\ndensity_per_cubic_angstrom methane = 0\n";
    let line = line_of("density_per_cubic_angstrom =");
    refused(&format!("{}{zero}", &WCA[..tail]), 2, line, "the densities add up to nothing");
}

#[test]
fn too_many_substances() {
    let more: String = (3..=9).map(|i| format!("substance s{i}\n")).collect();
    let line = WCA.lines().count() + 7;
    refused(&format!("{WCA}{more}"), 2, line, "s9 is substance 9, and a mixture has from 1 to 8");
}

#[test]
fn values_outside_their_intervals() {
    let line = line_of("sigma_angstrom");
    let message =
        "sigma of argon is 0.4, and must be from 0.5 to 10. Refused (code 7). A value of the";
    refused(&changed("3.404", "0.4"), 1, line, message);
    let message =
        "k_ij of argon and methane is 0.95, and must be from -0.9 to 0.9. Refused (code 7).";
    refused(&changed("0.01 ", "0.95 "), 1, line_of("k_ij"), message);
    let message = "the temperature is 0, and must be from 1 to 5000. Refused (code 8).";
    refused(&changed("293.15", "0"), 1, line_of("temperature"), message);
    let message = "the density of argon is 4, and must be from 0 to 2. Refused (code 8).";
    refused(&changed("= 0.005", "= 5"), 1, line_of("density_per_cubic_angstrom ="), message);
    let message = "the sum of the fractions is 0.9, and must be 1 within 2^-40. Refused (code 8).";
    refused(&changed("methane = 0.2", "methane = 0.1"), 1, line_of("fraction methane"), message);
    let message = "the fraction of argon is -0.8, and must be from 0 to 1.";
    refused(&changed("argon = 0.8", "argon = -0.8"), 1, line_of("fraction argon"), message);
}

#[test]
fn an_att_other_than_six_under_bh() {
    let bh = changed("= WCA", "= BH").replacen("att = 6", "att = 5.5", 1);
    let message =
        "att of argon is 5.5, and must be 6 under BH. Refused (code 12). Under BH the att of each";
    refused(&bh, 1, line_of("att"), message);
    assert_eq!(figures(&bh.replace("= BH", "= WCA"), &[]).status, Some(0));
}

#[test]
fn energies_without_ends_are_printed_and_refused() {
    // 300 is three times 100.
    let result = figures(&changed("117.84", "100").replace("293.15", "300"), &[]);
    assert_eq!(result.status, Some(1));
    assert!(result.stdout.contains("hard sphere        0  |0.00217"));
    assert!(result.stderr.contains("Refused (code 10). The energies have no ends:"));
}

#[test]
fn files_that_cannot_be_read() {
    let missing = run(command().arg("/nowhere/at/all.txt"), b"");
    assert_eq!(missing.status, Some(2));
    assert!(missing.stderr.contains("/nowhere/at/all.txt cannot be read: No such file"));
    let folder = run(command().arg("/"), b"");
    assert_eq!(folder.status, Some(2));
    assert!(folder.stderr.contains("/ cannot be read:"));
    let bytes = run(command().arg("-"), b"perturbation = BH\n\xff\xfe\n");
    assert_eq!(bytes.status, Some(2));
    assert!(bytes.stderr.contains("standard input:2: the line is not text in UTF-8"));
    let endless = run(command().arg("/dev/zero"), b"");
    assert_eq!(endless.status, Some(2));
    assert!(endless.stderr.contains("no file of a mixture"));
}

#[test]
fn arguments_that_are_not_understood() {
    for (arguments, message) in [
        (vec![], "the file of the mixture is missing"),
        (vec!["a", "b"], "one file of a mixture is taken"),
        (vec!["a", "--faster"], "there is no option --faster"),
        (vec!["a", "--csv"], "--csv and --plot go with --sweep"),
        (vec!["a", "--plot", "b.png"], "--csv and --plot go with --sweep"),
        (vec!["a", "--plot"], "--plot needs a file"),
        (vec!["a", "--csv", "--csv"], "--csv is given twice"),
        (vec!["a", "--pressure", "--pressure"], "--pressure is given twice"),
        (vec!["a", "--sweep"], "the variable is missing"),
        (vec!["a", "--sweep", "density", "0", "1"], "STEPS is missing"),
        (vec!["a", "--sweep", "pressure", "0", "1", "5"], "takes density or temperature"),
        (vec!["a", "--sweep", "density", "x", "1", "5"], "'x' is not a number"),
        (vec!["a", "--sweep", "density", "0", "nan", "5"], "'nan' is not a number"),
        (
            vec!["a", "--sweep", "density", "0", "1", "0"],
            "a whole number from 1 to 100000, not '0'",
        ),
        (vec!["a", "--sweep", "density", "0", "1", "1e3"], "a whole number from 1 to 100000"),
        (vec!["a", "--sweep", "density", "0", "1", "100001"], "a whole number from 1 to 100000"),
    ] {
        let result = run(command().args(&arguments), b"");
        assert_eq!(result.status, Some(2), "{arguments:?}");
        assert!(result.stderr.contains(message), "{arguments:?}: {}", result.stderr);
        assert!(result.stderr.contains("figures --help says more"));
        assert_eq!(result.stdout, "");
    }
}

#[test]
fn output_that_cannot_be_written() {
    let file = temporary("no-such-folder").join("records");
    let result = run(command().args(["-", "--records"]).arg(file), WCA.as_bytes());
    assert_eq!(result.status, Some(2));
    assert!(result.stderr.contains("records cannot be written: No such file"));
}
