//! A picture of a sweep, drawn by gnuplot.

use crate::arguments::{Sweep, Variable};
use crate::failure::Failure;
use crate::input::Input;
use crate::sweep::Point;
use std::io::Write;
use std::path::Path;
use std::process::{Command, Output, Stdio};

const PNG_SIGNATURE: &[u8] = b"\x89PNG\r\n\x1a\n";

/// Asked before the sweep is worked.
pub fn find_gnuplot() -> Result<(), Failure> {
    let found = Command::new("gnuplot").arg("--version").stdin(Stdio::null()).output();
    match found {
        Ok(output) if output.status.success() => Ok(()),
        _ => Err(Failure::bad_input(
            "--plot needs gnuplot, and no such program was found; Debian has it in the package gnuplot-nox \
             (apt install gnuplot-nox)",
        )),
    }
}

pub fn draw(file: &Path, input: &Input, sweep: &Sweep, points: &[Point]) -> Result<(), Failure> {
    if points.iter().all(|point| point.outcome.list().is_empty()) {
        return Err(Failure::refused("no state of the sweep has energies, so nothing is drawn"));
    }
    let output = gnuplot(&script(input, sweep, points))
        .map_err(|error| Failure::bad_input(format!("gnuplot cannot be run: {error}")))?;
    if !output.status.success() || !output.stdout.starts_with(PNG_SIGNATURE) {
        let message = String::from_utf8_lossy(&output.stderr);
        return Err(Failure::bad_input(format!("gnuplot drew nothing: {}", message.trim())));
    }
    let cannot =
        |error| Failure::bad_input(format!("{} cannot be written: {error}", file.display()));
    std::fs::write(file, output.stdout).map_err(cannot)
}

/// The picture comes by standard output, so that no name of a file is part of the script.
fn gnuplot(script: &str) -> std::io::Result<Output> {
    let mut child = Command::new("gnuplot")
        .stdin(Stdio::piped())
        .stdout(Stdio::piped())
        .stderr(Stdio::piped())
        .spawn()?;
    let mut input = child.stdin.take().expect("it is piped");
    let script = script.to_owned();
    // Another thread writes, so that neither side waits for the other.
    let writer = std::thread::spawn(move || input.write_all(script.as_bytes()));
    let output = child.wait_with_output()?;
    // Where gnuplot ended early its own message tells more than the broken pipe.
    let _ = writer.join();
    Ok(output)
}

const NAMES: [&str; 3] = ["hard sphere", "reference", "attractive"];

/// What is set before each panel.
const PANELS: [&str; 3] = [
    "set title 'The energies and their ends'\n\
     set format y '%.3g'\nset ylabel 'energy / kT per cubic angstrom'\n",
    "set title 'How far the ends are from the energy'\n\
     set logscale y\nset format y '%.0e'\nset ylabel 'distance from the value'\n",
    "set title 'Certain figures: those that the lower and the upper end have in common'\n\
     unset logscale y\nset format y '%g'\nset ylabel 'certain figures'\nset yrange [0:17.5]\nset ytics 0,2\n",
];
const VALUES: [&str; 2] = [
    "1:3:4 with filledcurves fs transparent solid 0.3 lc COLOUR title 'NAME, its ends'",
    "1:2 with lines lw 2 lc COLOUR title 'NAME'",
];
const ENDS: [&str; 2] = [
    "1:6 with lines lc COLOUR title 'NAME, upper end'",
    "1:5 with lines dt 2 lc COLOUR title 'NAME, lower end'",
];
const FIGURES: [&str; 1] = ["1:7 with points pt COLOUR ps 0.8 lc COLOUR title 'NAME'"];

/// The panel of the pressure, which is drawn where there is one.
const PRESSURE: &str = "set title 'The pressure, which is worked outside the proof'\n\
     set format y '%g'\nset ylabel 'bar'\nset yrange [*:*]\nset ytics autofreq\n\
     plot $pressure using 1:3 with lines lw 2 lc 4 title 'pressure', \
     $pressure using 1:2 with lines dt 2 lc 4 title 'ideal gas'\n";

/// Panels one above the other, of the data that stand in the script.
pub fn script(input: &Input, sweep: &Sweep, points: &[Point]) -> String {
    let mut script: String = (0..3).map(|energy| block(energy, points)).collect();
    let with_pressure = points.iter().any(|point| point.outcome.sloped().is_some());
    script += &if with_pressure { pressure_block(points) } else { String::new() };
    let rows = if with_pressure { 4 } else { 3 };
    let (axis, kept) = match sweep.variable {
        Variable::Density => {
            ("molecules per cubic angstrom", format!("{} K", input.state.temperature))
        }
        Variable::Temperature => ("kelvin", densities(input)),
    };
    let title = quoted(&format!("{}, {}, {kept}", input.names.join(" + "), input.perturbation));
    script += &format!(
        "set terminal pngcairo noenhanced size 1000,{} font 'Sans,11'\n\
         set multiplot layout {rows},1 title {title}\n\
         set lmargin at screen 0.11\nset rmargin at screen 0.74\n\
         set xlabel '{axis}'\nset grid\nset key outside right top\n",
        400 * rows
    );
    let panels = [plot(&VALUES), plot(&ENDS), plot(&FIGURES)];
    PANELS.iter().zip(panels).for_each(|(set, plot)| script += &format!("{set}{plot}"));
    script + if with_pressure { PRESSURE } else { "" } + "unset multiplot\n"
}

fn densities(input: &Input) -> String {
    let densities = input.state.partial_density.iter().map(f64::to_string);
    format!("{} per cubic angstrom", densities.collect::<Vec<_>>().join(" + "))
}

/// One command that plots the columns of all three energies, each in its colour.
fn plot(columns: &[&str]) -> String {
    let one = |(energy, name): (usize, &&str)| {
        let curve = |text: &&str| {
            let text = text.replace("COLOUR", &(energy + 1).to_string()).replace("NAME", name);
            format!("$energy{energy} using {text}")
        };
        columns.iter().map(curve).collect::<Vec<_>>().join(", ")
    };
    format!("plot {}\n", NAMES.iter().enumerate().map(one).collect::<Vec<_>>().join(", "))
}

/// A text within quotes of gnuplot, which knows no other sign in them.
fn quoted(text: &str) -> String {
    format!("'{}'", text.replace('\'', "''"))
}

/// at, value, lower, upper, value less lower, upper less value, certain figures. What does not exist is NaN.
fn block(energy: usize, points: &[Point]) -> String {
    let line = |point: &Point| {
        let Some(energy) = point.outcome.list().into_iter().nth(energy) else {
            return format!("{:e} NaN NaN NaN NaN NaN NaN\n", point.at);
        };
        let value = energy.value;
        let Some(range) = energy.range else {
            return format!("{:e} {value:e} NaN NaN NaN NaN 0\n", point.at);
        };
        // An end on the value has no place on a scale of powers.
        let distance = |d: f64| if d > 0.0 { format!("{d:e}") } else { "NaN".into() };
        format!(
            "{:e} {value:e} {:e} {:e} {} {} {}\n",
            point.at,
            range.lower,
            range.upper,
            distance(value - range.lower),
            distance(range.upper - value),
            energy.certain_figures()
        )
    };
    format!("$energy{energy} << END\n{}END\n", points.iter().map(line).collect::<String>())
}

/// at, ideal gas, pressure.
fn pressure_block(points: &[Point]) -> String {
    let line = |point: &Point| match point.outcome.sloped() {
        Some((_, pressure)) => {
            format!("{:e} {:e} {:e}\n", point.at, pressure.ideal, pressure.total())
        }
        None => format!("{:e} NaN NaN\n", point.at),
    };
    format!("$pressure << END\n{}END\n", points.iter().map(line).collect::<String>())
}
