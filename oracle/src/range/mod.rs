//! Ranges of two doubles by document 01's rules for ranges, and M-103's for powers of 2 and 4. Where
//! a rule fails, the failure is recorded, and the range has NaN for its ends.

mod functions;

use crate::failure::{Rule, fail};
use crate::shims::num_dual::assigning;
use std::cmp::Ordering;
use std::ops::{Add, Div, Mul, Neg, Sub};

#[derive(Clone, Copy, Debug, PartialEq)]
pub struct Range {
    pub lower: f64,
    pub upper: f64,
}

impl Range {
    pub const ZERO: Self = Self::point(0.0);
    pub const ONE: Self = Self::point(1.0);

    /// An input, a literal or a named constant.
    pub const fn point(v: f64) -> Self {
        Self { lower: positive_zero(v), upper: positive_zero(v) }
    }

    /// A whole number below 2^53.
    pub const fn whole(v: u64) -> Self {
        Self::point(v as f64)
    }

    fn failed(rule: Rule) -> Self {
        fail(rule);
        Self { lower: f64::NAN, upper: f64::NAN }
    }

    /// An end that is zero is +0, and one that is not finite fails.
    fn ends(lower: f64, upper: f64) -> Self {
        if !lower.is_finite() || !upper.is_finite() {
            return Self::failed(Rule::NotFinite);
        }
        Self { lower: positive_zero(lower), upper: positive_zero(upper) }
    }

    /// Each end moved to the next double outwards.
    fn outwards(lower: f64, upper: f64) -> Self {
        Self::ends(lower.next_down(), upper.next_up())
    }

    /// From the least to the greatest of four values, moved outwards.
    fn hull(values: [f64; 4]) -> Self {
        let least = values.into_iter().fold(values[0], f64::min);
        let greatest = values.into_iter().fold(values[0], f64::max);
        Self::outwards(least, greatest)
    }

    fn holds_zero(self) -> bool {
        self.lower <= 0.0 && self.upper >= 0.0
    }

    /// The ends with signs dropped, the lesser first, which is 0 where the range holds 0.
    fn magnitudes(self) -> Self {
        let (a, b) = (self.lower.abs(), self.upper.abs());
        let lower = if self.holds_zero() { 0.0 } else { a.min(b) };
        Self { lower, upper: a.max(b) }
    }

    /// The product of two ranges of magnitudes, whose lower end is never moved below 0.
    fn times_magnitudes(self, b: Self) -> Self {
        let lower = (self.lower * b.lower).next_down().max(0.0);
        Self::ends(lower, (self.upper * b.upper).next_up())
    }

    /// Squares and fourth powers have a rule of their own (M-103), since the sign of what is squared
    /// makes no difference. [0,0] stays.
    fn even_power(self, k: i32) -> Self {
        if self == Self::ZERO {
            return Self::ZERO;
        }
        let magnitudes = self.magnitudes();
        (1..k).fold(magnitudes, |power, _| power.times_magnitudes(magnitudes))
    }
}

const fn positive_zero(v: f64) -> f64 {
    if v == 0.0 { 0.0 } else { v }
}

impl Neg for Range {
    type Output = Self;
    fn neg(self) -> Self {
        Self { lower: positive_zero(-self.upper), upper: positive_zero(-self.lower) }
    }
}

impl Add for Range {
    type Output = Self;
    fn add(self, b: Self) -> Self {
        if self == Self::ZERO {
            b
        } else if b == Self::ZERO {
            self
        } else {
            Self::outwards(self.lower + b.lower, self.upper + b.upper)
        }
    }
}

impl Sub for Range {
    type Output = Self;
    fn sub(self, b: Self) -> Self {
        self + -b
    }
}

impl Mul for Range {
    type Output = Self;
    fn mul(self, b: Self) -> Self {
        if self == Self::ZERO || b == Self::ZERO {
            return Self::ZERO;
        }
        Self::hull([
            self.lower * b.lower,
            self.lower * b.upper,
            self.upper * b.lower,
            self.upper * b.upper,
        ])
    }
}

impl Div for Range {
    type Output = Self;
    fn div(self, b: Self) -> Self {
        if b.holds_zero() {
            return Self::failed(Rule::Divisor);
        }
        if self == Self::ZERO {
            return Self::ZERO;
        }
        Self::hull([
            self.lower / b.lower,
            self.lower / b.upper,
            self.upper / b.lower,
            self.upper / b.upper,
        ])
    }
}

assigning!(Range);

/// The text compares only by `<` with a constant; a range on both sides of it fails.
impl PartialOrd for Range {
    fn partial_cmp(&self, b: &Self) -> Option<Ordering> {
        if self.upper < b.lower {
            Some(Ordering::Less)
        } else if self.lower >= b.upper {
            Some(Ordering::Greater)
        } else {
            fail(Rule::OmegaSides);
            None
        }
    }
}
