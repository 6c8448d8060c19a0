//! The energies over a sweep of the density or the temperature.

use crate::arguments::{Arguments, Sweep, Variable};
use crate::failure::{self, Failure};
use crate::input::Input;
use crate::outcome::{Outcome, outcomes, reasons};
use crate::progress::Progress;
use crate::{csv, plot, table};
use noddyfir::{Case, State};
use std::io::{self, Write};
use std::path::Path;

/// So many states are worked between two looks at the terminal.
const PART: usize = 256;

/// A state of the sweep with its answers.
pub struct Point {
    pub at: f64,
    pub outcome: Outcome,
}

pub fn answer(arguments: &Arguments, input: &Input, sweep: &Sweep) -> Result<(), Failure> {
    if arguments.plot.is_some() {
        plot::find_gnuplot()?;
    }
    let points = print_all(arguments, input, sweep)?;
    if let Some(file) = &arguments.plot {
        plot::draw(file, input, sweep, &points)?;
    }
    let none_has = |what: fn(&Outcome) -> bool| !points.iter().any(|point| what(&point.outcome));
    if none_has(|outcome| outcome.ends.is_ok()) {
        return Err(Failure::refused("no state of the sweep has ends"));
    }
    if arguments.pressure && none_has(|outcome| outcome.sloped().is_some()) {
        return Err(Failure::refused("no state of the sweep has slopes"));
    }
    Ok(())
}

/// The swept values, FROM and TO among them.
fn values(sweep: &Sweep) -> Vec<f64> {
    let (from, to, steps) = (sweep.from, sweep.to, sweep.steps as f64);
    let between = |i: usize| (from * (steps - i as f64) + to * i as f64) / steps;
    let mut values: Vec<f64> = (0..=sweep.steps).map(between).collect();
    (values[0], values[sweep.steps]) = (from, to);
    values
}

/// Over densities the fractions stay, over temperatures the densities.
fn case(input: &Input, variable: Variable, at: f64) -> Case {
    let State { temperature, molefracs, partial_density } = input.state.clone();
    input.case(match variable {
        Variable::Density => State::with_density(temperature, at, molefracs),
        Variable::Temperature => State { temperature: at, molefracs, partial_density },
    })
}

/// Without a reader of the table, and without a picture to draw, the rest is not worked.
fn print_all(arguments: &Arguments, input: &Input, sweep: &Sweep) -> Result<Vec<Point>, Failure> {
    let (as_csv, with_pressure) = (arguments.csv, arguments.pressure);
    let (values, mut points) = (values(sweep), Vec::new());
    let progress = Progress::new(values.len());
    let head = if as_csv {
        csv::header(sweep.variable, with_pressure)
    } else {
        table::legend(with_pressure)
    };
    let mut open = print(&head)?;
    for part in values.chunks(PART) {
        progress.show(points.len());
        let cases: Vec<Case> = part.iter().map(|&at| case(input, sweep.variable, at)).collect();
        let outcomes = outcomes(&cases, with_pressure)?;
        let part_points: Vec<Point> =
            part.iter().zip(outcomes).map(|(&at, outcome)| Point { at, outcome }).collect();
        let text = text(as_csv, input, sweep, &part_points, &cases);
        progress.clear();
        open = open && print(&text)?;
        points.extend(part_points);
        if !open && arguments.plot.is_none() {
            break;
        }
    }
    Ok(points)
}

/// Whether there is still a reader.
fn print(text: &str) -> Result<bool, Failure> {
    match writeln!(io::stdout(), "{text}") {
        Ok(()) => Ok(true),
        Err(error) => failure::of_output(error).map(|()| false),
    }
}

fn text(as_csv: bool, input: &Input, sweep: &Sweep, points: &[Point], cases: &[Case]) -> String {
    let line = |(point, case): (&Point, &Case)| {
        let refusal = reasons(&point.outcome, case, input, Some(sweep.variable));
        if as_csv {
            return csv::line(point.at, &point.outcome, refusal.as_deref());
        }
        let mut lines = vec![format!("{} = {}", csv::variable_name(sweep.variable), point.at)];
        lines.extend((!point.outcome.list().is_empty()).then(table::header));
        lines.extend(table::lines(&point.outcome));
        lines.extend(table::slope_lines(&point.outcome));
        lines.extend(table::pressure_lines(&point.outcome));
        lines.extend(refusal);
        lines.join("\n") + "\n"
    };
    points.iter().zip(cases).map(line).collect::<Vec<_>>().join("\n")
}

/// The case records of the sweep, or of the file's own state.
pub fn write_records(file: &Path, input: &Input, sweep: Option<&Sweep>) -> Result<(), Failure> {
    let cases: Vec<Case> = match sweep {
        Some(sweep) => values(sweep).iter().map(|&at| case(input, sweep.variable, at)).collect(),
        None => vec![input.case(input.state.clone())],
    };
    let records: Vec<u8> = cases.iter().flat_map(Case::record).collect();
    let cannot =
        |error| Failure::bad_input(format!("{} cannot be written: {error}", file.display()));
    std::fs::write(file, records).map_err(cannot)
}
