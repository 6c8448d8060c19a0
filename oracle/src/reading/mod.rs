//! Exact readings of document 01 beside the ranges of the same places. A root is any fraction
//! between the ends of its range; `roots` has the ways to choose it.

pub mod big;
pub mod check;
pub mod enclosure;
pub mod notes;
mod recipes;
pub mod roots;

use crate::range::Range;
use crate::shims::num_dual::{DualNum, assigning};
use big::Big;
use enclosure::Enclosure;
use std::cmp::Ordering;
use std::ops::{Add, Div, Mul, Neg, Sub};

#[derive(Clone, Copy, Debug, PartialEq)]
pub struct Reading {
    range: Range,
    exact: Enclosure,
}

impl Reading {
    /// An input, a literal or a named constant.
    pub const fn point(v: f64) -> Self {
        Self { range: Range::point(v), exact: Enclosure::double(v) }
    }

    /// A whole number below 2^53.
    pub const fn whole(v: u64) -> Self {
        Self::point(v as f64)
    }

    pub const fn range(&self) -> Range {
        self.range
    }

    pub const fn exact(&self) -> Enclosure {
        self.exact
    }

    /// The result of an operation. Every one is compared, so that a slip shows at its place and not
    /// only where it grows as large as the ends of an energy are apart.
    fn at(range: Range, exact: Enclosure) -> Self {
        if range.lower.is_finite() && range.upper.is_finite() {
            notes::place(exact.lies_within(bounds(range)));
        }
        Self { range, exact }
    }
}

/// The ends as fractions.
fn bounds(range: Range) -> [Big; 2] {
    [range.lower, range.upper].map(Big::from_double)
}

impl Neg for Reading {
    type Output = Self;
    fn neg(self) -> Self {
        Self::at(-self.range, -self.exact)
    }
}

macro_rules! operation {
    ($operation:ident, $method:ident) => {
        impl $operation for Reading {
            type Output = Self;
            fn $method(self, b: Self) -> Self {
                Self::at(self.range.$method(b.range), self.exact.$method(b.exact))
            }
        }
    };
}

operation!(Add, add);
operation!(Sub, sub);
operation!(Mul, mul);
operation!(Div, div);
assigning!(Reading);

/// The text compares only by `<` with a constant.
impl PartialOrd for Reading {
    fn partial_cmp(&self, b: &Self) -> Option<Ordering> {
        // For the rule of ranges on 175.
        let _ = self.range.partial_cmp(&b.range);
        let below = self.exact.below(b.exact.lower);
        Some(if below { Ordering::Less } else { Ordering::Greater })
    }
}

impl DualNum for Reading {
    type Primitive = Self;

    fn zero() -> Self {
        Self::point(0.0)
    }

    fn one() -> Self {
        Self::point(1.0)
    }

    fn re(self) -> Self {
        self
    }

    fn powi(self, k: i32) -> Self {
        Self::at(self.range.powi(k), self.exact.powi(k))
    }

    fn sqrt(self) -> Self {
        let range = self.range.sqrt();
        if range.lower.is_nan() {
            return Self { range, exact: Enclosure::without_result() };
        }
        Self::at(range, Enclosure::point(notes::root(range)))
    }

    fn ln(self) -> Self {
        Self::at(self.range.ln(), recipes::ln(self.exact))
    }

    fn ln_1p(self) -> Self {
        Self::at(self.range.ln_1p(), recipes::ln_1p(self.exact))
    }

    fn exp(self) -> Self {
        Self::at(self.range.exp(), recipes::exp(self.exact))
    }

    fn tanh(self) -> Self {
        Self::at(self.range.tanh(), recipes::tanh(self.exact))
    }

    fn powd(self, b: Self) -> Self {
        Self::at(self.range.powd(b.range), recipes::power(self.exact, b.exact))
    }
}
