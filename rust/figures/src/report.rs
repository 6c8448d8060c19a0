//! The energies of the file's own state.

use crate::failure::{self, Failure};
use crate::input::Input;
use crate::outcome::{outcomes, reasons};
use crate::table;
use std::io::{self, Write};

pub fn answer(input: &Input, with_pressure: bool) -> Result<(), Failure> {
    let case = input.case(input.state.clone());
    let outcome = outcomes(std::slice::from_ref(&case), with_pressure)?[0];
    let mut lines = table::lines(&outcome);
    if !lines.is_empty() {
        let text = format!("{}\n{}\n", title(input), table::legend(with_pressure));
        for below in [table::slope_lines(&outcome), table::pressure_lines(&outcome)] {
            lines.extend((!below.is_empty()).then(String::new));
            lines.extend(below);
        }
        print(&text, &lines).or_else(failure::of_output)?;
    }
    reasons(&outcome, &case, input, None).map_or(Ok(()), |text| Err(Failure::refused(text)))
}

fn print(text: &str, lines: &[String]) -> io::Result<()> {
    let mut output = io::stdout().lock();
    writeln!(output, "{text}{}", table::header())?;
    lines.iter().try_for_each(|line| writeln!(output, "{line}"))
}

/// The mixture, the perturbation and the state in one line.
fn title(input: &Input) -> String {
    let amount = |(name, i): (&String, usize)| {
        format!("{name} {} (fraction {})", input.state.partial_density[i], input.state.molefracs[i])
    };
    let amounts: Vec<String> = input.names.iter().zip(0..).map(amount).collect();
    format!(
        "{} at {} K; molecules per cubic angstrom: {}",
        input.perturbation,
        input.state.temperature,
        amounts.join(", ")
    )
}
