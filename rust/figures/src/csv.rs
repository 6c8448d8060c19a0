//! Comma-separated values: one line for each state.

use crate::arguments::Variable;
use crate::outcome::{Energy, Outcome};
use noddyfir::decimal::{ALL_FIGURES, PRINTED_FIGURES, marked};

pub fn variable_name(variable: Variable) -> &'static str {
    match variable {
        Variable::Density => "density_per_cubic_angstrom",
        Variable::Temperature => "temperature_kelvin",
    }
}

const SLOPES: &str =
    ",hard_sphere_slope,reference_slope,attractive_slope,ideal_gas_bar,residual_bar,pressure_bar";

pub fn header(variable: Variable, with_pressure: bool) -> String {
    let columns = |name: &str| format!("{name},{name}_lower,{name}_upper,{name}_certain_figures");
    let energies = ["hard_sphere", "reference", "attractive"].map(columns).join(",");
    let slopes = if with_pressure { SLOPES } else { "" };
    format!("{},code,{energies}{slopes},refusal", variable_name(variable))
}

/// Reading a value or an end gives the same double again; as decimals, ends are rounded outwards. Where something does
/// not exist its cell is empty.
pub fn line(at: f64, outcome: &Outcome, refusal: Option<&str>) -> String {
    let mut energies: Vec<String> = outcome.list().iter().map(cells).collect();
    energies.resize(3, ",,,".into());
    let refusal =
        refusal.map_or(String::new(), |text| format!("\"{}\"", text.replace('"', "\"\"")));
    let code = outcome.code().map_or(String::new(), |code| code.to_string());
    format!("{at},{code},{}{},{refusal}", energies.join(","), slopes(outcome))
}

/// The cells of slopes and pressure, where these are asked for; reading one gives the same double again.
fn slopes(outcome: &Outcome) -> String {
    let Some((slopes, pressure)) = outcome.sloped() else {
        return if outcome.slopes.is_some() { ",,,,,,".into() } else { String::new() };
    };
    let slopes = slopes.all().into_iter().map(|energy| energy.slope);
    let pressures = [pressure.ideal, pressure.residual, pressure.total()];
    slopes.chain(pressures).map(|value| format!(",{value:?}")).collect()
}

fn cells(energy: &Energy) -> String {
    let value = marked(energy.value, ALL_FIGURES);
    let [lower, upper] = match energy.range {
        Some(range) => range.outwards(PRINTED_FIGURES).map(|end| end.to_string()),
        None => [String::new(), String::new()],
    };
    format!("{value},{lower},{upper},{}", energy.certain_figures())
}
