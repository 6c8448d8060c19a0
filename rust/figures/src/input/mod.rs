//! The text file of a mixture and its state.

mod build;
mod document;
mod line;
mod source;

use crate::failure::Failure;
use noddyfir::{Case, Field, Mixture, Perturbation, State};
use std::path::Path;

/// What is wrong with a file, and in which line.
#[derive(Debug, PartialEq)]
pub struct Complaint {
    pub line: usize,
    pub message: String,
}

impl Complaint {
    pub fn new(line: usize, message: impl Into<String>) -> Self {
        Self { line, message: message.into() }
    }
}

/// A mixture and its state, with the lines that they came from.
#[derive(Debug)]
pub struct Input {
    /// The name of the file, for messages.
    pub file: String,
    pub names: Vec<String>,
    pub perturbation: Perturbation,
    pub mixture: Mixture,
    pub state: State,
    pub lines: Lines,
}

/// The line of each value.
#[derive(Debug)]
pub struct Lines {
    /// rep, att, sigma, epsilon_k of each substance.
    pub substances: Vec<[usize; 4]>,
    pub k_ij: LinesOfPairs,
    pub l_ij: LinesOfPairs,
    pub temperature: usize,
    pub densities: Vec<usize>,
    pub fractions: Vec<usize>,
}

/// The two substances, and the line. A pair that is not here has no line.
type LinesOfPairs = Vec<([usize; 2], usize)>;

pub fn read(path: &Path) -> Result<Input, Failure> {
    let file = source::name(path);
    let located = |complaint: Complaint| {
        Failure::bad_input(format!("{file}:{}: {}", complaint.line, complaint.message))
    };
    let text = source::text(path)?.map_err(located)?;
    build::input(&file, document::parse(&text).map_err(located)?).map_err(located)
}

/// A finite decimal number.
pub fn number(word: &str) -> Result<f64, String> {
    let decimal =
        word.bytes().all(|byte| matches!(byte, b'0'..=b'9' | b'+' | b'-' | b'.' | b'e' | b'E'));
    match word.parse::<f64>() {
        Ok(number) if decimal && number.is_finite() => Ok(number),
        Ok(_) if decimal => Err(format!("'{word}' is too large for a double")),
        _ if word.contains(',') => {
            Err(format!("'{word}' is not a number; the decimal sign is a point"))
        }
        _ => Err(format!("'{word}' is not a number")),
    }
}

fn line_of_pair(lines: &LinesOfPairs, pair: [usize; 2]) -> Option<usize> {
    lines.iter().find(|(known, _)| *known == pair).map(|(_, line)| *line)
}

impl Input {
    /// The case of the mixture in a state of as many substances.
    pub fn case(&self, state: State) -> Case {
        Case::new(self.perturbation, self.mixture.clone(), state)
            .expect("a state has a density and a fraction for each substance")
    }

    /// The line of a field of this file's own state.
    pub fn line_of(&self, field: Field) -> Option<usize> {
        let lines = &self.lines;
        match field {
            Field::Rep(i) => Some(lines.substances[i][0]),
            Field::Att(i) => Some(lines.substances[i][1]),
            Field::Sigma(i) => Some(lines.substances[i][2]),
            Field::EpsilonK(i) => Some(lines.substances[i][3]),
            Field::Kij(i, j) => line_of_pair(&lines.k_ij, [i, j]),
            Field::Lij(i, j) => line_of_pair(&lines.l_ij, [i, j]),
            Field::Temperature => Some(lines.temperature),
            Field::PartialDensity(i) => Some(lines.densities[i]),
            Field::Molefrac(i) => Some(lines.fractions[i]),
            Field::MolefracSum => lines.fractions.iter().max().copied(),
        }
    }

    /// The field by the names of the file.
    pub fn name_of(&self, field: Field) -> String {
        let name = |i: usize| &self.names[i];
        match field {
            Field::Rep(i) => format!("rep of {}", name(i)),
            Field::Att(i) => format!("att of {}", name(i)),
            Field::Sigma(i) => format!("sigma of {}", name(i)),
            Field::EpsilonK(i) => format!("epsilon_k of {}", name(i)),
            Field::Kij(i, j) => format!("k_ij of {} and {}", name(i), name(j)),
            Field::Lij(i, j) => format!("l_ij of {} and {}", name(i), name(j)),
            Field::PartialDensity(i) => format!("the density of {}", name(i)),
            Field::Molefrac(i) => format!("the fraction of {}", name(i)),
            Field::Temperature | Field::MolefracSum => field.to_string(),
        }
    }
}
