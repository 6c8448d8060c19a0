//! Gases and liquids of simple substances.

use super::{mixture, set_density};
use crate::random::Random;
use crate::record::Case;

/// rep, att, sigma, epsilon_k near those of neon, argon, krypton, xenon, methane and nitrogen.
const SUBSTANCES: [[f64; 4]; 6] = [
    [11.0, 6.0, 2.8, 34.0],
    [12.26, 6.0, 3.41, 118.0],
    [12.65, 6.0, 3.64, 167.0],
    [13.0, 6.0, 3.96, 244.0],
    [12.65, 6.0, 3.74, 153.0],
    [13.5, 6.0, 3.61, 105.0],
];

pub fn case(random: &mut Random) -> Case {
    let k_ij = |random: &mut Random| random.pick(&[0.0, 0.0, 0.02, -0.015, 0.1]);
    let mut case = mixture(random, substance, k_ij, l_ij);
    case.temperature = random.between([75.0, 600.0]);
    let dilute = random.once_in(3);
    let reduced_density = random.unit() * if dilute { 0.01 } else { 0.9 };
    set_density(&mut case, reduced_density);
    if random.once_in(8) {
        // The densities need not belong to the fractions.
        case.partial_density.iter_mut().for_each(|density| *density *= random.unit());
    }
    case
}

/// Mostly 0, else some hundredths of either sign.
fn l_ij(random: &mut Random) -> f64 {
    let some = random.between([0.01, 0.1]);
    random.pick(&[0.0, 0.0, -0.0, some, -some])
}

/// One of the substances, changed by a few parts in a hundred; att is mostly 6.
pub fn substance(random: &mut Random) -> [f64; 4] {
    let [rep, att, sigma, epsilon_k] = random.pick(&SUBSTANCES);
    let mut near = |value: f64| value * random.between([0.97, 1.03]);
    let (rep, sigma, epsilon_k) = (near(rep), near(sigma), near(epsilon_k));
    let att = if random.once_in(4) { random.between([5.5, 6.5]) } else { att };
    [rep, att, sigma, epsilon_k]
}
