//! Sweeps as a table, as comma-separated values and as a picture.

mod common;

use common::{WCA, command, example, figures, run, temporary};
use std::io::{BufRead, BufReader};
use std::process::{Command, Stdio};

const HEADER: &str = "code,hard_sphere,hard_sphere_lower,hard_sphere_upper,hard_sphere_certain_figures,reference,\
    reference_lower,reference_upper,reference_certain_figures,attractive,attractive_lower,attractive_upper,\
    attractive_certain_figures,refusal";

#[test]
fn a_density_sweep_has_all_steps() {
    let result = figures(WCA, &["--sweep", "density", "0.001", "0.005", "4", "--csv"]);
    assert_eq!((result.status, result.stderr.as_str()), (Some(0), ""));
    let lines: Vec<&str> = result.stdout.lines().collect();
    assert_eq!(lines[0], format!("density_per_cubic_angstrom,{HEADER}"));
    let at: Vec<&str> = lines[1..].iter().map(|line| line.split(',').next().unwrap()).collect();
    assert_eq!(at, ["0.001", "0.002", "0.003", "0.004", "0.005"]);
    assert!(lines[1..].iter().all(|line| line.split(',').count() == 15 && line.ends_with(',')));
}

/// The last state of the density sweep and one of the temperature sweep are the file's own.
#[test]
fn a_sweep_meets_the_state_of_the_file() {
    let own = figures(WCA, &[]).stdout;
    let own: Vec<&str> = own.lines().filter(|line| line.contains('|')).collect();
    for sweep in [["density", "0.001", "0.005"], ["temperature", "100", "293.15"]] {
        let [variable, from, to] = sweep;
        let table = figures(WCA, &["--sweep", variable, from, to, "7"]).stdout;
        let lines: Vec<&str> = table.lines().filter(|line| line.contains('|')).collect();
        assert_eq!(lines[lines.len() - 3..], own[..]);
    }
}

/// Reading a line gives doubles, each value between its ends.
#[test]
fn values_lie_between_their_ends() {
    for name in ["argon-methane-bh.txt", "argon-methane-wca-b3.txt"] {
        let sweep = ["--sweep", "temperature", "90", "500", "1000", "--csv"];
        let result = run(command().arg(example(name)).args(sweep), b"");
        assert_eq!(result.status, Some(0));
        let mut seen = 0;
        for line in result.stdout.lines().skip(1) {
            let cells: Vec<&str> = line.splitn(15, ',').collect();
            for energy in cells[2..14].chunks(4).filter(|_| cells[1] == "0") {
                let number = |i: usize| energy[i].parse::<f64>().unwrap();
                assert!(number(1) <= number(0) && number(0) <= number(2), "{line}");
                assert!(number(3) <= 17.0);
                seen += 1;
            }
        }
        assert!(seen > 2900, "{seen}");
    }
}

#[test]
fn refused_states_have_their_sentence_and_the_others_go_on() {
    let result = figures(WCA, &["--sweep", "temperature", "0", "400", "4", "--csv"]);
    assert_eq!(result.status, Some(0));
    let lines: Vec<&str> = result.stdout.lines().collect();
    let expected =
        "0,8,,,,,,,,,,,,,\"the temperature is 0, and must be from 1 to 5000. Refused (code 8). A";
    assert!(lines[1].starts_with(expected), "{}", lines[1]);
    assert!(lines[2].starts_with("100,0,"));
    let result = figures(WCA, &["--sweep", "density", "5", "6", "2"]);
    assert_eq!(result.status, Some(1));
    assert!(result.stdout.contains("the density of argon is 4, and must be from 0 to 2."));
    assert!(result.stderr.contains("no state of the sweep has ends"));
}

#[test]
fn a_sweep_goes_down_too() {
    let result = figures(WCA, &["--sweep", "density", "0.002", "0.001", "2", "--csv"]);
    let at: Vec<&str> = result.stdout.lines().map(|line| line.split(',').next().unwrap()).collect();
    assert_eq!(at[1..], ["0.002", "0.0015", "0.001"]);
}

#[test]
fn a_reader_may_leave() {
    let sweep = ["--sweep", "density", "0", "0.02", "20000", "--csv"];
    let mut child = command()
        .arg(example("argon-methane-wca.txt"))
        .args(sweep)
        .stdout(Stdio::piped())
        .stderr(Stdio::piped())
        .spawn()
        .unwrap();
    let mut line = String::new();
    // The reader is dropped with its end of the pipe after one line.
    BufReader::new(child.stdout.take().unwrap()).read_line(&mut line).unwrap();
    let output = child.wait_with_output().unwrap();
    assert_eq!((output.status.code(), output.stderr.as_slice()), (Some(0), &b""[..]));
}

#[test]
fn without_gnuplot_the_message_says_so() {
    let file = temporary("missing.png");
    let sweep = ["-", "--sweep", "density", "0", "0.02", "5", "--plot"];
    let result = run(command().args(sweep).arg(&file).env("PATH", "/nowhere"), WCA.as_bytes());
    assert_eq!(result.status, Some(2));
    assert!(
        result
            .stderr
            .contains("--plot needs gnuplot, and no such program was found; Debian has it")
    );
    assert_eq!(result.stdout, "");
    assert!(!file.exists());
}

/// Drawn where there is a gnuplot; without one this says so and sees nothing.
#[test]
fn with_gnuplot_the_picture_is_drawn() {
    if Command::new("gnuplot").arg("--version").output().is_err() {
        eprintln!("left out: there is no gnuplot");
        return;
    }
    for (name, variable, from, to) in
        [("density", "density", "0", "0.02"), ("it's; kelvin", "temperature", "90", "500")]
    {
        let file = temporary(&format!("{name}.png"));
        let _ = std::fs::remove_file(&file);
        let sweep = ["-", "--pressure", "--sweep", variable, from, to, "60", "--plot"];
        let text = WCA.replace("argon", "ar'gon");
        let result = run(command().args(sweep).arg(&file), text.as_bytes());
        assert_eq!((result.status, result.stderr.as_str()), (Some(0), ""));
        assert!(std::fs::read(&file).unwrap().starts_with(b"\x89PNG"));
    }
}

/// What is sent to gnuplot, seen by a program that stands in its place, in a folder of this name.
#[cfg(unix)]
fn script(name: &str, options: &[&str]) -> String {
    use std::os::unix::fs::PermissionsExt;
    let folder = temporary(name);
    std::fs::create_dir_all(&folder).unwrap();
    let (program, script) = (folder.join("gnuplot"), folder.join("script"));
    let text = format!("#!/bin/sh\n[ $# = 1 ] && exit\n/bin/cat >'{}'\nexit 1\n", script.display());
    std::fs::write(&program, text).unwrap();
    std::fs::set_permissions(&program, std::fs::Permissions::from_mode(0o755)).unwrap();
    let sweep = ["-", "--sweep", "density", "0.001", "0.02", "3", "--plot", "x.png"];
    let result = run(command().args(sweep).args(options).env("PATH", &folder), WCA.as_bytes());
    assert_eq!(result.status, Some(2));
    assert!(result.stderr.contains("gnuplot drew nothing"));
    std::fs::read_to_string(script).unwrap()
}

#[test]
#[cfg(unix)]
fn the_script_for_gnuplot_has_all_three_panels() {
    let script = script("stand-in", &[]);
    assert!(script.contains("size 1000,1200 ") && script.contains("layout 3,1 "));
    assert_eq!(script.matches("\nplot $energy0 using ").count(), 3);
    assert_eq!(script.matches(" << END\n1e-3 ").count(), 3);
    assert!(script.contains("title 'argon + methane, WCA, 293.15 K'"));
}

#[test]
#[cfg(unix)]
fn with_pressure_the_script_has_a_panel_more() {
    let (without, with) = (script("without", &[]), script("with", &["--pressure"]));
    assert!(!without.contains("$pressure"));
    assert!(with.contains("size 1000,1600 ") && with.contains("layout 4,1 "));
    assert_eq!(with.matches("\nplot $pressure using ").count(), 1);
    let (_, data) = with.split_once("$pressure << END\n").unwrap();
    let rows: Vec<Vec<f64>> = data
        .lines()
        .take_while(|line| *line != "END")
        .map(|line| line.split(' ').map(|cell| cell.parse().unwrap()).collect())
        .collect();
    assert_eq!((rows.len(), rows[0][0], rows[3][0]), (4, 0.001, 0.02));
    // Attraction lowers the pressure of a thin gas, and the spheres raise that of a dense one.
    assert!(rows[0][2] < rows[0][1] && rows[3][2] > rows[3][1]);
}
