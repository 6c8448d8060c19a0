//! Energies as lines of a table.

use crate::outcome::{Energy, Outcome};
use noddyfir::Sloped;
use noddyfir::decimal::{ALL_FIGURES, PRINTED_FIGURES, marked};
use std::fmt::Display;

/// What the columns mean.
const LEGEND: &str = "\
Residual Helmholtz energies divided by kT, per cubic angstrom. The figures before the bar are certain:
every number from the lower to the upper end begins with them, so the double that was worked and the
value that the same formulas have without rounding. The ends are rounded outwards.
";

const PRESSURE_LEGEND: &str = "\
Slopes are those of the energies along total density, at fixed temperature and fractions: divided by kT,
per molecule. The pressure is kT * (density + density * sum of the slopes - sum of the energies), worked
from them outside the proof and rounded to ten figures. Neither has ends: no figure of them is certain.
";

pub fn legend(with_pressure: bool) -> String {
    format!("{LEGEND}{}", if with_pressure { PRESSURE_LEGEND } else { "" })
}

pub fn header() -> String {
    row(["energy", "certain", "value", "lower end", "upper end", "apart"].map(str::to_owned))
}

fn row([name, figures, value, lower, upper, apart]: [String; 6]) -> String {
    format!("{name:<12} {figures:>7}  {value:<26}  {lower:<25}  {upper:<25}  {apart}")
}

fn line(energy: &Energy) -> String {
    let figures = energy.certain_figures();
    let value = marked(energy.value, figures);
    let number = if figures == ALL_FIGURES { "all".into() } else { figures.to_string() };
    let [lower, upper, apart] = match energy.range {
        Some(range) => {
            let [lower, upper] = range.outwards(PRINTED_FIGURES).map(|end| end.to_string());
            [lower, upper, range.width().to_string()]
        }
        None => ["none", "none", ""].map(str::to_owned),
    };
    row([energy.name.into(), number, value, lower, upper, apart]).trim_end().to_owned()
}

/// The slopes with their header, where there are any. Reading one gives the same double again.
pub fn slope_lines(outcome: &Outcome) -> Vec<String> {
    let Some((slopes, _)) = outcome.sloped() else { return Vec::new() };
    let line = |((name, _), energy): (_, Sloped)| short_row(name, format!("{:?}", energy.slope));
    let lines = slopes.energies().named().into_iter().zip(slopes.all()).map(line);
    [short_row("energy", "slope")].into_iter().chain(lines).collect()
}

/// The parts of the pressure with their header, where there is one.
pub fn pressure_lines(outcome: &Outcome) -> Vec<String> {
    let Some((_, pressure)) = outcome.sloped() else { return Vec::new() };
    vec![
        short_row("pressure", "bar"),
        short_row("ideal gas", ten_figures(pressure.ideal)),
        short_row("residual", ten_figures(pressure.residual)),
        short_row("total", ten_figures(pressure.total())),
    ]
}

fn short_row(name: &str, value: impl Display) -> String {
    format!("{name:<12} {value}")
}

/// Rounded, without zeros at the end.
fn ten_figures(value: f64) -> String {
    let rounded: f64 = format!("{value:.9e}").parse().expect("it is written as a number");
    format!("{rounded:?}")
}

/// The lines of the energies, or none where they are refused.
pub fn lines(outcome: &Outcome) -> Vec<String> {
    outcome.list().iter().map(line).collect()
}
