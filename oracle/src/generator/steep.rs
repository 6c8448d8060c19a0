//! States at which slopes are extreme: the smallest densities, where BH's logarithm of the density is
//! steepest and its powers vanish, the greatest densities, and cold states of large molecules.

use super::{realistic, set_barker_henderson, set_density, wide};
use crate::random::Random;
use crate::record::{Case, interval};

pub fn case(random: &mut Random) -> Case {
    let mut case = if random.once_in(4) { wide::case(random) } else { realistic::case(random) };
    let change = match random.below(12) {
        0..4 => small,
        4..6 => vanishing_powers,
        6..8 => full,
        8..11 => cold,
        _ => slope_then_value,
    };
    change(random, &mut case);
    case
}

/// A small density, shared by the fractions, or of one component, or another for each.
fn small(random: &mut Random, case: &mut Case) {
    let density = small_density(random);
    match random.below(3) {
        0 => share(case, density),
        1 => {
            let one = random.below(case.partial_density.len());
            case.partial_density.fill(0.0);
            case.partial_density[one] = density;
        }
        _ => case.partial_density.fill_with(|| small_density(random)),
    }
}

/// A few of the smallest doubles; any subnormal; near 1 and 4.2773 over the greatest double, where the
/// slopes of BH's logarithm and of its multiple become infinite; near the least normal double; any
/// double up to 2.
fn small_density(random: &mut Random) -> f64 {
    let steps = random.below(8) as u64;
    let near = |v: f64| v.to_bits() - 4 + steps;
    let infinite = random.pick(&[1.0, 4.2773]) / f64::MAX;
    let subnormal = random.bits() >> 12;
    let any = random.bits() % interval::DENSITY[1].to_bits();
    let choices = [steps, subnormal, near(infinite), near(f64::MIN_POSITIVE), any];
    f64::from_bits(random.pick(&choices))
}

fn share(case: &mut Case, density: f64) {
    case.partial_density = case.molefracs.iter().map(|x| x * density).collect();
}

/// Reduced densities whose power 1.2187 or 4.2773 under BH is near exp(−700).
fn vanishing_powers(random: &mut Random, case: &mut Case) {
    set_barker_henderson(random, case);
    let reduced_density = random.pick(&[3.3e-250, 8.4e-72]) * (0.5 + random.unit());
    set_density(case, reduced_density);
}

/// Densities at 2 and just below; small molecules leave room for some of them.
fn full(random: &mut Random, case: &mut Case) {
    case.substances.iter_mut().for_each(|s| s[2] = random.between([0.5, 1.0]));
    let greatest = interval::DENSITY[1];
    let density = random.pick(&[greatest, greatest.next_down(), 1.0]);
    if random.once_in(2) {
        share(case, density);
    } else {
        let one = random.below(case.partial_density.len());
        case.partial_density.iter_mut().for_each(|v| *v *= random.pick(&[0.0, 1.0]));
        case.partial_density[one] = density;
    }
}

/// 1/t up to 700, where a virial coefficient is near the greatest doubles, at densities from 0 on.
fn cold(random: &mut Random, case: &mut Case) {
    let epsilon_k = random.between([710.0, 4900.0]);
    let sigma = random.between([2.0, 10.0]);
    case.substances.iter_mut().for_each(|s| (s[2], s[3]) = (sigma, epsilon_k));
    case.k_ij.fill(0.0);
    case.l_ij.iter_mut().for_each(|l_ij| l_ij.fill(0.0));
    case.temperature = epsilon_k / random.between([680.0, 700.0]);
    let reduced_density = random.pick(&[0.0, 1e-9, 1e-3, 0.5]) * random.unit();
    set_density(case, reduced_density);
}

/// BH's logarithm has a slope that is not finite, and the virial coefficient, worked later, no value.
fn slope_then_value(random: &mut Random, case: &mut Case) {
    set_barker_henderson(random, case);
    cold(random, case);
    case.temperature = case.substances[0][3] / random.between([701.0, 709.0]);
    share(case, random.unit() * f64::MIN_POSITIVE);
}
