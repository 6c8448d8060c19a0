//! Values with slopes along total density, by document 02's rules (M-100). The value half is `Double`'s
//! own work. An operation whose slope is not finite records it, also where the result is ignored later.

use crate::double::Double;
use crate::failure::{Rule, fail};
use crate::shims::num_dual::{DualNum, assigning};
use std::cmp::Ordering;
use std::ops::{Add, Div, Mul, Neg, Sub};

#[derive(Clone, Copy, Debug)]
pub struct Dual {
    value: Double,
    slope: f64,
}

impl Dual {
    /// An input, a literal or a named constant.
    pub const fn point(v: f64) -> Self {
        Self::constant(Double::point(v))
    }

    /// A whole number below 2^53.
    pub const fn whole(v: u64) -> Self {
        Self::constant(Double::whole(v))
    }

    pub const fn value(self) -> f64 {
        self.value.value()
    }

    pub const fn slope(self) -> f64 {
        self.slope
    }

    const fn constant(value: Double) -> Self {
        Self { value, slope: 0.0 }
    }

    /// The result of an operation. Only its slope is tested, and not the terms that make it.
    fn result(value: Double, slope: f64) -> Self {
        if slope.is_finite() {
            return Self { value, slope };
        }
        fail(Rule::Slope);
        Self { value, slope: f64::NAN }
    }
}

const TWO: Dual = Dual::point(2.0);

impl Neg for Dual {
    type Output = Self;
    fn neg(self) -> Self {
        Self::result(-self.value, -self.slope)
    }
}

impl Add for Dual {
    type Output = Self;
    fn add(self, b: Self) -> Self {
        Self::result(self.value + b.value, self.slope + b.slope)
    }
}

impl Sub for Dual {
    type Output = Self;
    fn sub(self, b: Self) -> Self {
        Self::result(self.value - b.value, self.slope - b.slope)
    }
}

impl Mul for Dual {
    type Output = Self;
    fn mul(self, b: Self) -> Self {
        let slope = self.slope * b.value() + self.value() * b.slope;
        Self::result(self.value * b.value, slope)
    }
}

impl Div for Dual {
    type Output = Self;
    fn div(self, b: Self) -> Self {
        let above = self.slope * b.value() - self.value() * b.slope;
        Self::result(self.value / b.value, above / (b.value() * b.value()))
    }
}

assigning!(Dual);

/// Cases are chosen by the value.
impl PartialEq for Dual {
    fn eq(&self, b: &Self) -> bool {
        self.value == b.value
    }
}

impl PartialOrd for Dual {
    fn partial_cmp(&self, b: &Self) -> Option<Ordering> {
        self.value.partial_cmp(&b.value)
    }
}

impl DualNum for Dual {
    type Primitive = Self;

    fn zero() -> Self {
        Self::point(0.0)
    }

    fn one() -> Self {
        Self::point(1.0)
    }

    fn re(self) -> Self {
        self
    }

    fn with_slope(self, slope: f64) -> Self {
        Self { slope, ..self }
    }

    fn sqrt(self) -> Self {
        let root = self.value.sqrt();
        Self::result(root, self.slope / (2.0 * root.value()))
    }

    fn ln(self) -> Self {
        Self::result(self.value.ln(), self.slope / self.value())
    }

    fn ln_1p(self) -> Self {
        Self::result(self.value.ln_1p(), self.slope / (1.0 + self.value()))
    }

    fn exp(self) -> Self {
        let exp = self.value.exp();
        if self.value() < -700.0 {
            return Self::constant(exp);
        }
        Self::result(exp, self.slope * exp.value())
    }

    fn powd(self, b: Self) -> Self {
        if self.value() == 0.0 {
            return Self::constant(self.value.powd(b.value));
        }
        (b * self.ln()).exp()
    }

    fn tanh(self) -> Self {
        if self.value().abs() > 20.0 {
            return Self::constant(self.value.tanh());
        }
        Self::one() - TWO / ((TWO * self).exp() + Self::one())
    }
}
