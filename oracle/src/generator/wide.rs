//! Substances and states anywhere in their intervals.

use super::{mixture, set_density};
use crate::random::Random;
use crate::record::{Case, interval};

pub fn case(random: &mut Random) -> Case {
    let k_ij = |random: &mut Random| random.between(interval::K_IJ);
    let l_ij = |random: &mut Random| random.between(interval::L_IJ);
    let mut case = mixture(random, substance, k_ij, l_ij);
    case.temperature = skewed(random, interval::TEMPERATURE);
    if random.once_in(4) {
        case.partial_density.fill_with(|| random.between(interval::DENSITY));
    } else {
        // Anywhere, packing leaves few energies finite.
        set_density(&mut case, random.unit() * 1.2);
    }
    case
}

fn substance(random: &mut Random) -> [f64; 4] {
    let [rep, att, sigma, epsilon_k] = interval::SUBSTANCE;
    let (rep, att, sigma) = (random.between(rep), random.between(att), random.between(sigma));
    [rep, att, sigma, skewed(random, epsilon_k)]
}

/// Half of the time near the lower limit.
fn skewed(random: &mut Random, [least, greatest]: [f64; 2]) -> f64 {
    let part = random.unit() * if random.once_in(2) { 0.02 } else { 1.0 };
    least + (greatest - least) * part
}
