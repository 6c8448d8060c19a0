//! Fields at the limits of their intervals, just beyond them, and at the special doubles.

use super::realistic;
use crate::random::Random;
use crate::record::{Case, interval};

pub fn case(random: &mut Random) -> Case {
    let mut case = realistic::case(random);
    if random.once_in(4) {
        set_fraction_sum(random, &mut case);
        return case;
    }
    for _ in 0..1 + random.below(3) {
        let mut fields = fields(&mut case);
        let at = random.below(fields.len());
        let (field, interval) = &mut fields[at];
        **field = random.pick(&special(*interval));
    }
    case
}

/// Every field with its interval.
fn fields(case: &mut Case) -> Vec<(&mut f64, [f64; 2])> {
    let substances = case.substances.iter_mut().flat_map(|s| s.iter_mut().zip(interval::SUBSTANCE));
    let k_ij = case.k_ij.iter_mut().map(|k| (k, interval::K_IJ));
    let l_ij = case.l_ij.iter_mut().flatten().map(|l| (l, interval::L_IJ));
    let densities = case.partial_density.iter_mut().map(|v| (v, interval::DENSITY));
    let fractions = case.molefracs.iter_mut().map(|v| (v, interval::FRACTION));
    let temperature = [(&mut case.temperature, interval::TEMPERATURE)];
    let state = temperature.into_iter().chain(densities).chain(fractions);
    substances.chain(k_ij).chain(l_ij).chain(state).collect()
}

/// The limits twice, since only they and their inner neighbours pass.
fn special([least, greatest]: [f64; 2]) -> [f64; 16] {
    let beyond = [least.next_down(), greatest.next_up()];
    let inside = [least.next_up(), greatest.next_down()];
    let smallest = f64::from_bits(1);
    [
        [least, greatest, least, greatest],
        [inside[0], inside[1], beyond[0], beyond[1]],
        [0.0, -0.0, smallest, f64::MIN_POSITIVE],
        [f64::NAN, f64::INFINITY, f64::NEG_INFINITY, -1.0],
    ]
    .concat()
    .try_into()
    .expect("four times four values")
}

/// Sets the last fraction so that the sum is near a limit of its interval.
fn set_fraction_sum(random: &mut Random, case: &mut Case) {
    let limit = random.pick(&interval::FRACTION_SUM);
    let sum = random.pick(&[limit, limit.next_up(), limit.next_down()]);
    let (last, others) = case.molefracs.split_last_mut().expect("there is a component");
    *last = sum - others.iter().sum::<f64>();
}
