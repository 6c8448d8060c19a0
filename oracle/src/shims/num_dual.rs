//! num_dual's trait, with the operations that the ported text calls. `Primitive` is always the type
//! itself, also for values with slopes: a parameter is one whose slope is 0.

use std::ops::{Add, AddAssign, Div, Mul, MulAssign, Neg, Sub};

pub trait DualNum:
    Copy
    + From<<Self as DualNum>::Primitive>
    + Neg<Output = Self>
    + Add<Output = Self>
    + Sub<Output = Self>
    + Mul<Output = Self>
    + Div<Output = Self>
    + Add<<Self as DualNum>::Primitive, Output = Self>
    + Sub<<Self as DualNum>::Primitive, Output = Self>
    + Mul<<Self as DualNum>::Primitive, Output = Self>
    + Div<<Self as DualNum>::Primitive, Output = Self>
    + AddAssign
    + MulAssign
{
    type Primitive;

    fn zero() -> Self;
    fn one() -> Self;
    fn re(self) -> Self::Primitive;

    /// An input that starts with a slope, for types that have one.
    fn with_slope(self, _slope: f64) -> Self {
        self
    }

    fn sqrt(self) -> Self;
    fn ln(self) -> Self;
    fn ln_1p(self) -> Self;
    fn exp(self) -> Self;
    fn tanh(self) -> Self;
    fn powd(self, b: Self) -> Self;

    fn powf(self, b: Self::Primitive) -> Self {
        self.powd(Self::from(b))
    }

    fn recip(self) -> Self {
        Self::one() / self
    }

    fn powi(self, k: i32) -> Self {
        product_power(Self::one(), self, k)
    }
}

/// The product from the left, v × v × v; without a factor it is one.
pub fn product_power<T: Copy + Mul<Output = T>>(one: T, v: T, k: i32) -> T {
    assert!(k >= 0, "the ported text has no negative power");
    if k == 0 { one } else { (1..k).fold(v, |product, _| product * v) }
}

/// The polynomial with these coefficients, lowest power first, by Horner's rule.
pub fn horner<T: DualNum, const N: usize>(x: T, coefficients: [T; N]) -> T {
    let (&last, others) = coefficients.split_last().expect("there are coefficients");
    others.iter().rev().fold(last, |p, &c| p * x + c)
}

/// `+=` and `*=` by `+` and `*`.
macro_rules! assigning {
    ($number:ty) => {
        impl std::ops::AddAssign for $number {
            fn add_assign(&mut self, b: Self) {
                *self = *self + b;
            }
        }

        impl std::ops::MulAssign for $number {
            fn mul_assign(&mut self, b: Self) {
                *self = *self * b;
            }
        }
    };
}
pub(crate) use assigning;
