//! Whole records of several kinds for the comparison with the port, from a seed.

mod damaged;
mod limits;
mod realistic;
mod sparse;
mod steep;
mod thresholds;
mod wide;

use crate::random::Random;
use crate::record::{Case, pairs};

/// The kinds of record by name.
pub const KINDS: [(&str, Kind); 8] = [
    ("realistic", |random| realistic::case(random).record()),
    ("wide", |random| wide::case(random).record()),
    ("limits", |random| limits::case(random).record()),
    ("thresholds", |random| thresholds::case(random).record()),
    ("zero-density", |random| sparse::without_density(random).record()),
    ("zero-fraction", |random| sparse::without_fraction(random).record()),
    ("damaged", damaged::record),
    ("steep", |random| steep::case(random).record()),
];

/// Makes one record.
pub type Kind = fn(&mut Random) -> Vec<u8>;

pub fn kind(name: &str) -> Option<Kind> {
    KINDS.iter().find(|(known, _)| *known == name).map(|(_, kind)| *kind)
}

/// A mixture in a state, before its densities are scaled to its substances; one in two has l_ij, and so is
/// of version 2.
fn mixture(
    random: &mut Random,
    substance: impl Fn(&mut Random) -> [f64; 4],
    k_ij: impl Fn(&mut Random) -> f64,
    l_ij: impl Fn(&mut Random) -> f64,
) -> Case {
    let n = 1 + random.below(8);
    let mut case = Case {
        perturbation: random.below(3) as u8,
        substances: (0..n).map(|_| substance(random)).collect(),
        k_ij: (0..pairs(n)).map(|_| k_ij(random)).collect(),
        l_ij: random.once_in(2).then(|| (0..pairs(n)).map(|_| l_ij(random)).collect()),
        temperature: 300.0,
        partial_density: vec![0.0; n],
        molefracs: fractions(random, n),
    };
    if case.perturbation == 0 {
        set_barker_henderson(random, &mut case);
    }
    case
}

/// BH, which needs each att equal to 6: so it is, but once in 16 times for one component, and once in
/// 16 times as drawn.
fn set_barker_henderson(random: &mut Random, case: &mut Case) {
    case.perturbation = 0;
    if random.once_in(16) {
        return;
    }
    case.substances.iter_mut().for_each(|s| s[1] = 6.0);
    if random.once_in(16) {
        let one = random.below(case.substances.len());
        let beside = [6.0_f64.next_down(), 6.0_f64.next_up(), 5.0, 7.0, 5.5, -6.0];
        case.substances[one][1] = random.pick(&beside);
    }
}

/// Fractions whose sum is 1 but for rounding, and once in 64 times is not.
fn fractions(random: &mut Random, n: usize) -> Vec<f64> {
    let weights: Vec<f64> = (0..n).map(|_| random.unit() + 1e-3).collect();
    let total: f64 = weights.iter().sum();
    let total = if random.once_in(64) { total * random.pick(&[0.99, 1.000_001]) } else { total };
    weights.into_iter().map(|weight| weight / total).collect()
}

/// Sets each partial density to its fraction of a total density, given by reduced density.
fn set_density(case: &mut Case, reduced_density: f64) {
    let sigma3 = case.substances.iter().zip(&case.molefracs).map(|(s, x)| x * s[2] * s[2] * s[2]);
    let density = reduced_density / sigma3.sum::<f64>();
    case.partial_density = case.molefracs.iter().map(|x| (x * density).min(2.0)).collect();
}
