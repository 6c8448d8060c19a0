//! Cases with densities or fractions of zero.

use super::{realistic, wide};
use crate::random::Random;
use crate::record::Case;

/// All densities zero, some of them −0; or only some densities zero.
pub fn without_density(random: &mut Random) -> Case {
    let mut case = if random.once_in(4) { wide::case(random) } else { realistic::case(random) };
    let all = !random.once_in(4);
    for density in &mut case.partial_density {
        if all || random.once_in(2) {
            *density = random.pick(&[0.0, 0.0, -0.0]);
        }
    }
    case
}

/// Some fractions zero, but not the first; their sum stays 1 but for rounding.
pub fn without_fraction(random: &mut Random) -> Case {
    let mut case = realistic::case(random);
    for at in 1..case.molefracs.len() {
        if random.once_in(2) {
            case.molefracs[0] += case.molefracs[at];
            case.molefracs[at] = random.pick(&[0.0, 0.0, -0.0]);
            case.partial_density[at] *= random.pick(&[0.0, 1.0]);
        }
    }
    case.molefracs[0] = case.molefracs[0].min(1.0);
    case
}
