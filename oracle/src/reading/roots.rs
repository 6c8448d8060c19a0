//! The ways to choose a root: any fraction between the ends that the range rules give it.

use super::big::{Big, Rounding::Down};
use crate::random::Random;
use crate::range::Range;

pub type Choice = fn(Range, &mut Random) -> Big;

/// The choices by name.
pub const POLICIES: [(&str, Choice); 4] =
    [("lower", lower), ("upper", upper), ("middle", middle), ("random", random)];

pub fn policy(name: &str) -> Option<(&'static str, Choice)> {
    POLICIES.into_iter().find(|(known, _)| *known == name)
}

fn lower(range: Range, _: &mut Random) -> Big {
    Big::from_double(range.lower)
}

fn upper(range: Range, _: &mut Random) -> Big {
    Big::from_double(range.upper)
}

fn middle(range: Range, _: &mut Random) -> Big {
    between(range, 0.5)
}

fn random(range: Range, random: &mut Random) -> Big {
    between(range, random.unit())
}

/// lower + (upper − lower) × part. Where a step must round, it rounds down, and as the lower end
/// itself needs no rounding, the result stays between the ends.
fn between(range: Range, part: f64) -> Big {
    let [lower, upper] = [range.lower, range.upper].map(Big::from_double);
    let width = upper.add(-lower, Down);
    lower.add(width.mul(Big::from_double(part), Down), Down)
}
