//! The check of demand 3 on one record: energies and readings between the ends, and no further
//! apart than the ends are.

use super::big::{Big, Rounding::Down, Rounding::Up};
use super::enclosure::Enclosure;
use super::notes::{Notes, with_roots};
use super::roots::Choice;
use crate::over_readings::contributions;
use crate::record::Case;

/// Which of the three energies, in the order of an answer.
pub const ENERGIES: [&str; 3] = ["hard sphere", "reference", "attractive"];

#[derive(Clone, Copy, Debug, PartialEq)]
pub enum Finding {
    /// An enclosure leaves a case, or a comparison below, open.
    Undecided,
    /// A divisor of 0, or an argument without a rule.
    NoResult,
    /// So many values do not lie within the ranges of their places.
    Places(u64),
    /// The reading of this energy is not between its ends.
    Reading(usize),
    /// The double of this energy is not between its ends.
    Double(usize),
    /// Reading and double of this energy are further apart than its ends.
    Distance(usize),
}

/// What the answers of energies and ends say of a record.
#[derive(Clone, Copy, Debug)]
pub struct Answers {
    pub energies: [f64; 3],
    /// Three pairs lower, upper.
    pub ends: [f64; 6],
}

/// Everything found on one reading of the case, and the notes on how it was worked.
pub fn check(case: &Case, answers: &Answers, roots: Choice, seed: u64) -> (Vec<Finding>, Notes) {
    let (readings, notes) = with_roots(roots, seed, || contributions(case));
    if notes.undecided > 0 {
        return (vec![Finding::Undecided], notes);
    }
    if notes.without_result > 0 {
        return (vec![Finding::NoResult], notes);
    }
    let outside = (notes.outside > 0).then_some(Finding::Places(notes.outside));
    let each = (0..3).flat_map(|k| energy(k, answers, readings[k].exact()));
    (outside.into_iter().chain(each).collect(), notes)
}

fn energy(k: usize, answers: &Answers, reading: Enclosure) -> impl Iterator<Item = Finding> {
    let [lower, upper] = [answers.ends[2 * k], answers.ends[2 * k + 1]];
    let double = answers.energies[k];
    let inside = double >= lower && double <= upper;
    [
        finding(between(reading, lower, upper), Finding::Reading(k)),
        finding(Some(inside), Finding::Double(k)),
        finding(near(reading, double, lower, upper), Finding::Distance(k)),
    ]
    .into_iter()
    .flatten()
}

fn finding(holds: Option<bool>, finding: Finding) -> Option<Finding> {
    match holds {
        Some(true) => None,
        Some(false) => Some(finding),
        None => Some(Finding::Undecided),
    }
}

/// Whether the reading is between the ends, unless its enclosure is on both sides of one.
fn between(reading: Enclosure, lower: f64, upper: f64) -> Option<bool> {
    let [lower, upper] = [lower, upper].map(Big::from_double);
    if reading.lies_within([lower, upper]) {
        Some(true)
    } else {
        (reading.upper < lower || reading.lower > upper).then_some(false)
    }
}

/// Whether reading and double differ by at most upper − lower, unless rounding hides it.
fn near(reading: Enclosure, double: f64, lower: f64, upper: f64) -> Option<bool> {
    let [lower, upper] = [lower, upper].map(Big::from_double);
    let apart = reading - Enclosure::double(double);
    let most = apart.upper.max(-apart.lower);
    let least = apart.lower.max(-apart.upper);
    if most <= upper.add(-lower, Down) {
        Some(true)
    } else {
        (least > upper.add(-lower, Up)).then_some(false)
    }
}
