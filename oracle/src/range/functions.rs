//! The whole powers, the root, and the recipes of ln, ln_1p, exp, powers and tanh in ranges. A range
//! that meets two cases of one rule fails.

use super::Range;
use crate::constants::*;
use crate::failure::Rule;
use crate::shims::num_dual::{DualNum, horner, product_power};

const TWO: Range = Range::point(2.0);

/// (2s) × p, where p is the polynomial of ln and ln_1p in s × s.
fn logarithm_series(s: Range) -> Range {
    (TWO * s) * horner(s * s, ODD_RECIPROCALS.map(Range::point))
}

/// Both ends times 2^k, which is exact for the values and the k of exp.
fn scaled(v: Range, k: f64) -> Range {
    let power = power_of_two(k as i32);
    Range { lower: v.lower * power, upper: v.upper * power }
}

impl DualNum for Range {
    type Primitive = Self;

    fn zero() -> Self {
        Self::ZERO
    }

    fn one() -> Self {
        Self::ONE
    }

    fn re(self) -> Self {
        self
    }

    fn powi(self, k: i32) -> Self {
        match k {
            2 | 4 => self.even_power(k),
            _ => product_power(Self::ONE, self, k),
        }
    }

    fn sqrt(self) -> Self {
        if self == Self::ZERO {
            Self::ZERO
        } else if self.lower >= 0.0 {
            Self::outwards(self.lower.sqrt(), self.upper.sqrt())
        } else {
            Self::failed(Rule::Root)
        }
    }

    fn ln(self) -> Self {
        if self.lower.is_nan() || self.lower <= 0.0 {
            return Self::failed(Rule::Base);
        }
        let (lower, e) = mantissa_and_exponent(self.lower);
        let (upper, upper_e) = mantissa_and_exponent(self.upper);
        if e != upper_e {
            return Self::failed(Rule::TwoE);
        }
        let m = Self { lower, upper };
        let s = (m - Self::ONE) / (m + Self::ONE);
        logarithm_series(s) + Self::point(e as f64) * Self::point(L)
    }

    fn ln_1p(self) -> Self {
        if self.lower >= -0.25 && self.upper <= 0.25 {
            logarithm_series(self / (TWO + self))
        } else if self.lower > 0.25 || (self.lower > -1.0 && self.upper < -0.25) {
            (Self::ONE + self).ln()
        } else if self.lower <= -1.0 {
            Self::failed(Rule::LogarithmArgument)
        } else {
            Self::failed(Rule::QuarterSides)
        }
    }

    fn exp(self) -> Self {
        if self.upper < -700.0 {
            return Self::ZERO;
        }
        if self.lower < -700.0 {
            return Self::failed(Rule::UnderflowSides);
        }
        if self.upper > 700.0 {
            return Self::failed(Rule::ExpAbove);
        }
        let t = self * Self::point(E) + Self::point(0.5);
        let k = t.lower.floor();
        if k != t.upper.floor() {
            return Self::failed(Rule::TwoK);
        }
        let r = (self - Self::point(k) * Self::point(H)) - Self::point(k) * Self::point(G);
        scaled(horner(r, FACTORIAL_RECIPROCALS.map(Self::point)), k)
    }

    fn powd(self, b: Self) -> Self {
        if self == Self::ZERO && b.lower > 0.0 {
            return Self::ZERO;
        }
        (b * self.ln()).exp()
    }

    fn tanh(self) -> Self {
        if self.lower > 20.0 {
            Self::ONE
        } else if self.upper < -20.0 {
            -Self::ONE
        } else if self.lower >= -20.0 && self.upper <= 20.0 {
            Self::ONE - TWO / ((TWO * self).exp() + Self::ONE)
        } else {
            Self::failed(Rule::TanhSides)
        }
    }
}
