//! Doubles with document 01's functions in place of the library's. An operation fails, and gives
//! NaN, when its result is not finite or a function has no rule for its argument.

use crate::constants::*;
use crate::failure::{Rule, fail};
use crate::shims::num_dual::{DualNum, assigning, horner};
use std::ops::{Add, Div, Mul, Neg, Sub};

/// A newtype: on `f64` itself the library's ln, exp and so on would win over ours.
#[derive(Clone, Copy, Debug, PartialEq, PartialOrd)]
pub struct Double(f64);

impl Double {
    /// An input, a literal or a named constant.
    pub const fn point(v: f64) -> Self {
        Self(v)
    }

    /// A whole number below 2^53.
    pub const fn whole(v: u64) -> Self {
        Self(v as f64)
    }

    pub const fn value(self) -> f64 {
        self.0
    }
}

const ONE: Double = Double(1.0);
const TWO: Double = Double(2.0);

fn finite(v: f64) -> Double {
    if v.is_finite() { Double(v) } else { failed(Rule::NotFinite) }
}

/// For a result that is not finite and for an argument without a rule.
fn failed(rule: Rule) -> Double {
    fail(rule);
    Double(f64::NAN)
}

impl Neg for Double {
    type Output = Self;
    fn neg(self) -> Self {
        finite(-self.0)
    }
}

impl Add for Double {
    type Output = Self;
    fn add(self, b: Self) -> Self {
        finite(self.0 + b.0)
    }
}

impl Sub for Double {
    type Output = Self;
    fn sub(self, b: Self) -> Self {
        finite(self.0 - b.0)
    }
}

impl Mul for Double {
    type Output = Self;
    fn mul(self, b: Self) -> Self {
        finite(self.0 * b.0)
    }
}

impl Div for Double {
    type Output = Self;
    fn div(self, b: Self) -> Self {
        finite(self.0 / b.0)
    }
}

assigning!(Double);

/// (2s) × p, where p is the polynomial of ln and ln_1p in s × s.
fn logarithm_series(s: Double) -> Double {
    (TWO * s) * horner(s * s, ODD_RECIPROCALS.map(Double))
}

impl DualNum for Double {
    type Primitive = Self;

    fn zero() -> Self {
        Self(0.0)
    }

    fn one() -> Self {
        ONE
    }

    fn re(self) -> Self {
        self
    }

    fn sqrt(self) -> Self {
        // The library's square root is IEEE 754's.
        if self.0 < 0.0 { failed(Rule::Root) } else { finite(self.0.sqrt()) }
    }

    fn ln(self) -> Self {
        if self.0.is_nan() || self.0 <= 0.0 {
            return failed(Rule::Base);
        }
        let (m, e) = mantissa_and_exponent(self.0);
        let s = (Double(m) - ONE) / (Double(m) + ONE);
        logarithm_series(s) + Double(e as f64) * Double(L)
    }

    fn ln_1p(self) -> Self {
        if self.0 <= -1.0 {
            failed(Rule::LogarithmArgument)
        } else if (-0.25..=0.25).contains(&self.0) {
            logarithm_series(self / (TWO + self))
        } else {
            (ONE + self).ln()
        }
    }

    fn exp(self) -> Self {
        if self.0 < -700.0 {
            return Self(0.0);
        }
        if self.0.is_nan() || self.0 > 700.0 {
            return failed(Rule::ExpAbove);
        }
        let k = (self * Double(E) + Double(0.5)).0.floor();
        let r = (self - Double(k) * Double(H)) - Double(k) * Double(G);
        horner(r, FACTORIAL_RECIPROCALS.map(Double)) * Double(power_of_two(k as i32))
    }

    fn powd(self, b: Self) -> Self {
        if self.0 == 0.0 {
            return if b.0 > 0.0 { Self(0.0) } else { failed(Rule::Base) };
        }
        (b * self.ln()).exp()
    }

    fn tanh(self) -> Self {
        if self.0 > 20.0 {
            ONE
        } else if self.0 < -20.0 {
            -ONE
        } else {
            ONE - TWO / ((TWO * self).exp() + ONE)
        }
    }
}
