//! Two big numbers with an exact fraction between them: its lower bound is rounded down at every
//! operation and its upper bound up.

use super::big::{Big, Rounding::Down, Rounding::Up};
use super::notes;
use crate::shims::num_dual::product_power;
use std::ops::{Add, Div, Mul, Neg, Sub};

#[derive(Clone, Copy, Debug, PartialEq)]
pub struct Enclosure {
    pub lower: Big,
    pub upper: Big,
}

impl Enclosure {
    pub const ZERO: Self = Self::double(0.0);
    pub const ONE: Self = Self::double(1.0);

    /// The double as the fraction it is.
    pub const fn double(v: f64) -> Self {
        Self::point(Big::from_double(v))
    }

    pub const fn point(v: Big) -> Self {
        Self { lower: v, upper: v }
    }

    /// Where a reading has no result. The value stands for nothing, and the note says so.
    pub fn without_result() -> Self {
        notes::without_result();
        Self::ONE
    }

    pub fn scaled(self, k: i64) -> Self {
        Self { lower: self.lower.scaled(k), upper: self.upper.scaled(k) }
    }

    /// Whether the fraction is below the limit.
    pub fn below(&self, limit: Big) -> bool {
        let (surely, possibly) = (self.upper < limit, self.lower < limit);
        if surely != possibly {
            notes::undecided();
        }
        possibly
    }

    /// Whether the fraction is above the limit.
    pub fn above(&self, limit: Big) -> bool {
        (-*self).below(-limit)
    }

    pub fn lies_within(&self, [lower, upper]: [Big; 2]) -> bool {
        lower <= self.lower && self.upper <= upper
    }

    /// The product from the left. An even power is that of the magnitude, so that its bounds are not
    /// below 0.
    pub fn powi(self, k: i32) -> Self {
        product_power(Self::ONE, if k % 2 == 0 { self.magnitude() } else { self }, k)
    }

    fn magnitude(self) -> Self {
        let upper = self.upper.max(-self.lower);
        let lower = self.lower.max(-self.upper).max(Big::ZERO);
        Self { lower, upper }
    }

    fn is_positive(&self) -> bool {
        self.lower > Big::ZERO
    }

    /// No part of it is above 0, and it is not 0.
    fn is_nonpositive(&self) -> bool {
        self.upper <= Big::ZERO && self.lower < Big::ZERO
    }
}

impl Neg for Enclosure {
    type Output = Self;
    fn neg(self) -> Self {
        Self { lower: -self.upper, upper: -self.lower }
    }
}

impl Add for Enclosure {
    type Output = Self;
    fn add(self, b: Self) -> Self {
        Self { lower: self.lower.add(b.lower, Down), upper: self.upper.add(b.upper, Up) }
    }
}

impl Sub for Enclosure {
    type Output = Self;
    fn sub(self, b: Self) -> Self {
        self + -b
    }
}

impl Mul for Enclosure {
    type Output = Self;
    fn mul(self, b: Self) -> Self {
        if self.is_nonpositive() {
            return -(-self * b);
        }
        if b.is_nonpositive() {
            return -(self * -b);
        }
        if !self.lower.is_negative() && !b.lower.is_negative() {
            return Self {
                lower: self.lower.mul(b.lower, Down),
                upper: self.upper.mul(b.upper, Up),
            };
        }
        // At least one has numbers of both signs.
        let lower = self.lower.mul(b.upper, Down).min(self.upper.mul(b.lower, Down));
        let upper = self.lower.mul(b.lower, Up).max(self.upper.mul(b.upper, Up));
        Self { lower, upper }
    }
}

impl Div for Enclosure {
    type Output = Self;
    fn div(self, b: Self) -> Self {
        if b.upper < Big::ZERO {
            return -self / -b;
        }
        if b == Self::ZERO {
            return Self::without_result();
        }
        if !b.is_positive() {
            notes::undecided();
            return Self::ONE;
        }
        let below = if self.lower.is_negative() { b.lower } else { b.upper };
        let above = if self.upper.is_negative() { b.upper } else { b.lower };
        Self { lower: self.lower.div(below, Down), upper: self.upper.div(above, Up) }
    }
}
