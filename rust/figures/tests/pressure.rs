//! Slopes and pressure, which are printed where they are asked for.

mod common;

use common::{WCA, figures};

const COLUMNS: &str =
    "hard_sphere_slope,reference_slope,attractive_slope,ideal_gas_bar,residual_bar,pressure_bar";

/// The cells of a line of comma-separated values that has no refusal.
fn numbers(line: &str) -> Vec<f64> {
    line.trim_end_matches(',').split(',').map(|cell| cell.parse().unwrap()).collect()
}

#[test]
fn they_stand_below_the_energies() {
    let (without, with) = (figures(WCA, &[]), figures(WCA, &["--pressure"]));
    assert_eq!((with.status, with.stderr.as_str()), (Some(0), ""));
    let tables = |text: &str| text.split_once("\n\n").unwrap().1.to_owned();
    let below = "\n\
        energy       slope\n\
        hard sphere  0.9526101330661104\n\
        reference    0.07553862234274894\n\
        attractive   -1.236290722699902\n\n\
        pressure     bar\n\
        ideal gas    202.3686272\n\
        residual     -16.37282554\n\
        total        185.9958016\n";
    assert_eq!(tables(&with.stdout), tables(&without.stdout) + below);
    assert!(with.stdout.contains("worked\nfrom them outside the proof"));
    assert!(!without.stdout.contains("pressure"));
}

/// The pressure of each line is that of its own values and slopes.
#[test]
fn a_sweep_has_them_as_columns() {
    let sweep = ["--sweep", "density", "0.001", "0.02", "19", "--csv"];
    let without = figures(WCA, &sweep).stdout;
    let with = figures(WCA, &[&sweep[..], &["--pressure"]].concat()).stdout;
    for (place, (old, new)) in without.lines().zip(with.lines()).enumerate() {
        if place == 0 {
            assert_eq!(new, old.replace(",refusal", &format!(",{COLUMNS},refusal")));
            continue;
        }
        assert!(new.starts_with(old), "{new}");
        let cells = numbers(new);
        let (density, value) = (cells[0], cells[2] + cells[6] + cells[10]);
        let [slope, kt] = [cells[14] + cells[15] + cells[16], 138.0649 * 293.15];
        let expected = kt * (density + density * slope - value);
        assert!((cells[19] / expected - 1.0).abs() < 1e-12, "{new}");
        assert_eq!(cells[17] + cells[18], cells[19]);
    }
    assert_eq!(with.lines().count(), 21);
}

/// The last state of the sweep is the file's own.
#[test]
fn the_table_of_a_sweep_has_them_for_each_state() {
    let lines = |text: &str| {
        let lines = text.lines().filter(|line| !line.is_empty()).map(str::to_owned);
        lines.collect::<Vec<_>>()
    };
    let own = lines(&figures(WCA, &["--pressure"]).stdout);
    let sweep = ["--pressure", "--sweep", "density", "0.001", "0.005", "2"];
    let table = lines(&figures(WCA, &sweep).stdout);
    assert_eq!(table[table.len() - 12..], own[own.len() - 12..]);
    assert_eq!(table.iter().filter(|line| line.starts_with("total ")).count(), 3);
}

#[test]
fn energies_without_ends_have_them() {
    // 300 is three times 100.
    let text = WCA.replace("117.84", "100").replace("293.15", "300");
    let result = figures(&text, &["--pressure"]);
    assert_eq!(result.status, Some(1));
    assert!(result.stdout.contains("\nideal gas    207.09735\n"));
    assert!(result.stderr.contains("Refused (code 10). The energies have no ends:"));
}

/// Under BH a subnormal density has energies with ends, and no slopes.
#[test]
fn energies_without_slopes_say_so() {
    let text = WCA.replace("perturbation = WCA", "perturbation = BH");
    let text = text.replace("argon = 0.8", "argon = 1").replace("methane = 0.2", "methane = 0");
    let sweep = ["--pressure", "--sweep", "density", "1e-320", "0.01", "1"];
    let csv = figures(&text, &[&sweep[..], &["--csv"]].concat());
    assert_eq!((csv.status, csv.stderr.as_str()), (Some(0), ""));
    let line = csv.stdout.lines().nth(1).unwrap();
    let reason = "\"Refused (code 11). The energies have no slopes: on the way, a slope is not a finite number.\"";
    assert!(line.contains(",11,0,") && line.ends_with(&format!(",0,,,,,,,{reason}")), "{line}");
    let table = figures(&text, &sweep).stdout;
    assert_eq!(table.matches("\npressure     bar\n").count(), 1);
    let none = figures(&text, &["--pressure", "--sweep", "density", "1e-320", "2e-320", "1"]);
    assert_eq!(none.status, Some(1));
    assert!(none.stderr.contains("no state of the sweep has slopes"));
    // Without --pressure nothing is missing.
    assert_eq!(figures(&text, &sweep[1..]).status, Some(0));
}

#[test]
fn a_refused_state_has_one_reason() {
    let result = figures(&WCA.replace("293.15", "0.5"), &["--pressure"]);
    assert_eq!((result.status, result.stdout.as_str()), (Some(1), ""));
    assert_eq!(result.stderr.matches("Refused (code 8)").count(), 1);
}
