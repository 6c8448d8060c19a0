//! States at which a formula meets the other case of a rule, or comes near to it: 175 in
//! `u_fraction_wca`, the limits of exp, tanh and `ln_1p`, a new exponent in ln, and close packing.

use super::{mixture, set_density};
use crate::random::Random;
use crate::record::{Case, interval};

pub fn case(random: &mut Random) -> Case {
    // Equal substances, so that the values of the mixture are those of each up to rounding.
    let one = substance(random);
    let mut case = mixture(random, |_| one, |_| 0.0, l_ij);
    set_density(&mut case, random.unit() * 0.9);
    let threshold = random.pick(&[
        reduced_temperature,
        exp_overflow,
        exp_underflow,
        omega_underflow,
        tanh_limit,
        ln_exponent,
        packing,
    ]);
    threshold(random, &mut case);
    let [least, greatest] = interval::TEMPERATURE;
    case.temperature = case.temperature.clamp(least, greatest);
    case
}

fn substance(random: &mut Random) -> [f64; 4] {
    let rep = random.pick(&[8.0, 12.0, 12.26, 12.65, 13.0, 24.0, 48.0]);
    let att = random.pick(&[6.0, 6.0, 5.0, 7.0]);
    [rep, att, random.between([0.5, 4.0]), random.between([0.2, 25.0])]
}

/// Mostly 0, so that sigma_ij is that of each substance too.
fn l_ij(random: &mut Random) -> f64 {
    if random.once_in(16) { random.between(interval::L_IJ) } else { random.pick(&[0.0, -0.0]) }
}

/// A value a little off: by nothing, by a few units in the last place, or by up to a thousandth.
fn near(random: &mut Random, value: f64) -> f64 {
    let ulps = random.below(9) as f64 - 4.0;
    let parts = random.between([-1.0, 1.0]);
    let small = random.pick(&[0.0, ulps * f64::EPSILON, ulps * 1e-14, parts * 1e-9, parts * 1e-3]);
    value * (1.0 + small)
}

fn set_epsilon(case: &mut Case, epsilon_k: f64) {
    case.substances.iter_mut().for_each(|s| s[3] = epsilon_k);
}

/// t_x near 175, and near 10, where B3's tanh meets 20.
fn reduced_temperature(random: &mut Random, case: &mut Case) {
    let t_x = random.pick(&[175.0, 175.0, 175.0, 10.0]);
    case.temperature = near(random, t_x * case.substances[0][3]);
}

/// 1/t near 700, the largest argument of exp.
fn exp_overflow(random: &mut Random, case: &mut Case) {
    let epsilon_k = random.between([705.0, 4900.0]);
    set_epsilon(case, epsilon_k);
    case.temperature = near(random, epsilon_k / 700.0);
}

/// B3's alpha near exp(−700).
fn exp_underflow(random: &mut Random, case: &mut Case) {
    case.perturbation = 2;
    set_epsilon(case, 1000.0);
    let reduced_density = random.between([0.3, 0.9]);
    set_density(case, reduced_density);
    let factor = 700.0 * case.substances[0][0] / (reduced_density * 26.454);
    case.temperature = near(random, 1000.0 * (1.8045 / (factor - 1.0)).sqrt());
}

/// B3's omega near exp(−700): t_x × 12 × (reduced density − 0.4)² near 700.
fn omega_underflow(random: &mut Random, case: &mut Case) {
    case.perturbation = 2;
    let t_x = random.between([60.0, 400.0]);
    case.temperature = t_x * case.substances[0][3];
    let reduced_density = near(random, 0.4 + (700.0 / (12.0 * t_x)).sqrt());
    set_density(case, reduced_density);
}

/// WCA's tanh near 20, which only hot and dense states reach.
fn tanh_limit(random: &mut Random, case: &mut Case) {
    case.perturbation = 1;
    let b = 1.1169 + 16.881 / case.substances[0][0];
    let reduced_density = (-1.4419 + (1.4419 * 1.4419 + 80.0 * b).sqrt()) / (2.0 * b);
    let reduced_density = near(random, reduced_density);
    set_density(case, reduced_density);
    case.temperature = 5000.0;
}

/// rep/att near 1.5 × 2^e, where ln takes the next e.
fn ln_exponent(random: &mut Random, case: &mut Case) {
    let rep = random.pick(&[9.0, 18.0, 36.0]);
    let rep = near(random, rep);
    case.substances.iter_mut().for_each(|s| (s[0], s[1]) = (rep, 6.0));
    case.temperature = case.substances[0][3] * random.between([1.0, 8.0]);
}

/// Packing fractions near 0.25, where `ln_1p` changes its case, and near 1, where it ends.
fn packing(random: &mut Random, case: &mut Case) {
    case.temperature = case.substances[0][3] * random.between([0.8, 30.0]);
    let reduced_density = random.pick(&[0.48, 0.5, 0.55, 0.6, 1.9, 2.2]);
    set_density(case, near(random, reduced_density));
}
