//! The tables of docs/FIGURES.md, from records and the answers to them.

use super::{certified, sample::potentials};
use crate::answer::failing_rule;
use crate::failure::Rule;
use crate::record::{self, code, split};
use std::collections::BTreeMap;
use std::fmt::{Display, Formatter};

const PERTURBATIONS: [&str; 3] = ["BH", "WCA", "WCA-B3"];

/// The perturbation and the potentials. The names are written in the order of the sample.
type Key = (usize, &'static str);

#[derive(Default)]
struct Row {
    records: usize,
    /// The figures of each energy, one number for each record with ends.
    figures: [Vec<usize>; 3],
    without: BTreeMap<Rule, usize>,
}

#[derive(Default)]
pub struct Table {
    rows: BTreeMap<Key, Row>,
}

impl Table {
    /// The answers must belong to the records, each energy must lie between its ends, and a refusal
    /// of the ends must be one of the oracle's too.
    pub fn of(records: &[u8], energies: &[u8], ends: &[u8]) -> Result<Self, String> {
        let mut table = Self::default();
        let [mut energies, mut ends] = [energies, ends].map(split);
        for (at, record) in split(records).enumerate() {
            let [Some(energies), Some(ends)] = [energies.next(), ends.next()] else {
                return Err(format!("no answer to record {at}"));
            };
            table.add(record, energies, ends).map_err(|what| format!("record {at}: {what}"))?;
        }
        Ok(table)
    }

    fn add(&mut self, record: &[u8], energies: &[u8], ends: &[u8]) -> Result<(), String> {
        let case = record::read(record).map_err(|code| format!("refused with {code}"))?;
        let potentials = potentials(&case).ok_or("its substances are not those of the sample")?;
        let row = self.rows.entry((case.perturbation as usize, potentials)).or_default();
        row.records += 1;
        let energies: [f64; 3] =
            values(energies)?.map_err(|code| format!("no energies: {code}"))?;
        match values::<6>(ends)? {
            Ok(ends) => row.add(energies, ends),
            Err(code::ENDS) => {
                let rule = failing_rule(&case).ok_or("the oracle has ends, the answer has none")?;
                *row.without.entry(rule).or_default() += 1;
                Ok(())
            }
            Err(code) => Err(format!("energies, but no ends: {code}")),
        }
    }
}

impl Row {
    fn add(&mut self, energies: [f64; 3], ends: [f64; 6]) -> Result<(), String> {
        for (k, energy) in energies.into_iter().enumerate() {
            let [lower, upper] = [ends[2 * k], ends[2 * k + 1]];
            if !(lower <= energy && energy <= upper) {
                return Err(format!("energy {k} is not between its ends"));
            }
            self.figures[k].push(certified(lower, upper));
        }
        Ok(())
    }

    fn with_ends(&self) -> usize {
        self.figures[0].len()
    }
}

/// The doubles of an answer, or its code.
fn values<const N: usize>(answer: &[u8]) -> Result<Result<[f64; N], u8>, String> {
    match answer {
        [0, 2, 1, code] if *code != 0 => Ok(Err(*code)),
        [_, _, 1, 0, doubles @ ..] if doubles.len() == 8 * N => Ok(Ok(std::array::from_fn(|k| {
            f64::from_be_bytes(std::array::from_fn(|byte| doubles[8 * k + byte]))
        }))),
        _ => Err("an answer of another form".to_string()),
    }
}

/// The median, with the numbers below which 5 % and 95 % lie; then the least.
fn spread(figures: &[usize]) -> String {
    if figures.is_empty() {
        return "–".to_string();
    }
    let mut sorted = figures.to_vec();
    sorted.sort_unstable();
    let at = |percent: usize| sorted[(sorted.len() - 1) * percent / 100];
    format!("{} ({}, {}); {}", at(50), at(5), at(95), at(0))
}

const FIGURES_HEADING: &str = "\
| perturbation | potentials | records | with ends | hard sphere | reference | attractive |
|---|---|---|---|---|---|---|";
const RULES_HEADING: &str = "\
| perturbation | potentials | first rule that fails | records |
|---|---|---|---|";

impl Display for Table {
    fn fmt(&self, f: &mut Formatter) -> std::fmt::Result {
        writeln!(f, "{FIGURES_HEADING}")?;
        for ((perturbation, potentials), row) in &self.rows {
            let share = 100.0 * row.with_ends() as f64 / row.records as f64;
            write!(f, "| {} | {potentials} ", PERTURBATIONS[*perturbation])?;
            write!(f, "| {} | {share:.2} % ", row.records)?;
            row.figures.iter().try_for_each(|figures| write!(f, "| {} ", spread(figures)))?;
            writeln!(f, "|")?;
        }
        writeln!(f, "\n{RULES_HEADING}")?;
        for ((perturbation, potentials), row) in &self.rows {
            for (rule, count) in &row.without {
                let name = PERTURBATIONS[*perturbation];
                writeln!(f, "| {name} | {potentials} | {} | {count} |", rule.name())?;
            }
        }
        Ok(())
    }
}
