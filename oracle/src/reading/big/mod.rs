//! Binary floating-point numbers of 256 bits, with every exponent that occurs. A result is rounded
//! down or up, as the caller asks, so that two of them enclose an exact fraction.

mod limbs;

use limbs::{LIMBS, Mantissa, WIDE, Wide, any_below, bits_from, leading_zeros};
use std::cmp::Ordering;
use std::ops::Neg;

const BITS: i64 = 64 * LIMBS as i64;

/// Down is towards −∞, up towards +∞.
#[derive(Clone, Copy, PartialEq)]
pub enum Rounding {
    Down,
    Up,
}

/// ± mantissa × 2^exponent. The highest bit of the mantissa is 1, except that zero has neither
/// sign, bits nor exponent; so equal numbers have equal fields.
#[derive(Clone, Copy, Debug, PartialEq, Eq)]
pub struct Big {
    negative: bool,
    exponent: i64,
    mantissa: Mantissa,
}

impl Big {
    pub const ZERO: Self = Self { negative: false, exponent: 0, mantissa: [0; LIMBS] };

    /// A finite double, exactly.
    pub const fn from_double(v: f64) -> Self {
        let bits = v.to_bits();
        let field = (bits >> 52 & 0x7ff) as i64;
        let fraction = bits & ((1 << 52) - 1);
        assert!(field != 0x7ff, "a double that is not finite");
        let significand = if field == 0 { fraction } else { 1 << 52 | fraction };
        if significand == 0 {
            return Self::ZERO;
        }
        let unit = if field == 0 { -1074 } else { field - 1075 };
        let shift = significand.leading_zeros();
        let mut mantissa = [0; LIMBS];
        mantissa[LIMBS - 1] = significand << shift;
        Self { negative: bits >> 63 == 1, exponent: unit - shift as i64 - (BITS - 64), mantissa }
    }

    pub fn is_zero(&self) -> bool {
        *self == Self::ZERO
    }

    pub fn is_negative(&self) -> bool {
        self.negative
    }

    /// times 2^k, exactly.
    pub fn scaled(self, k: i64) -> Self {
        if self.is_zero() { self } else { Self { exponent: self.exponent + k, ..self } }
    }

    /// The e of v = m × 2^e with 0.75 ≤ m < 1.5, for a v above 0.
    pub fn ln_exponent(&self) -> i64 {
        // The highest bit is worth 2^top, and v/2^top is 1.5 or more if the next bit is 1.
        let top = self.exponent + BITS - 1;
        top + (self.mantissa[LIMBS - 1] >> 62 & 1) as i64
    }

    /// The greatest whole number not above it, for a number of small size.
    pub fn floor(&self) -> i64 {
        let below_one = -self.exponent;
        if self.is_zero() || below_one >= BITS {
            return if self.negative { -1 } else { 0 };
        }
        assert!(below_one > BITS - 63, "a number too large for its floor");
        let [whole]: [u64; 1] = bits_from(&self.mantissa, below_one as isize);
        let part = any_below(&self.mantissa, below_one as usize);
        if self.negative { -(whole as i64) - part as i64 } else { whole as i64 }
    }

    pub fn add(self, b: Self, rounding: Rounding) -> Self {
        if self.is_zero() || b.is_zero() {
            return if self.is_zero() { b } else { self };
        }
        let (a, b) = if self.exponent >= b.exponent { (self, b) } else { (b, self) };
        let exponent = a.exponent - BITS;
        let mut larger: Wide = bits_from(&a.mantissa, -BITS as isize);
        let smaller = lowered(&b.mantissa, a.exponent - b.exponent);
        if a.negative == b.negative {
            limbs::add(&mut larger, &smaller);
            return rounded(a.negative, &larger, exponent, rounding);
        }
        // Mantissas are normalised, so that only equal exponents can bring the larger one second.
        if larger.iter().rev().lt(smaller.iter().rev()) {
            let mut rest = smaller;
            limbs::subtract(&mut rest, &larger);
            return rounded(b.negative, &rest, exponent, rounding);
        }
        limbs::subtract(&mut larger, &smaller);
        rounded(a.negative, &larger, exponent, rounding)
    }

    pub fn mul(self, b: Self, rounding: Rounding) -> Self {
        if self.is_zero() || b.is_zero() {
            return Self::ZERO;
        }
        let product = limbs::product(&self.mantissa, &b.mantissa);
        rounded(self.negative != b.negative, &product, self.exponent + b.exponent, rounding)
    }

    /// The divisor is not zero.
    pub fn div(self, b: Self, rounding: Rounding) -> Self {
        assert!(!b.is_zero(), "a divisor of zero");
        if self.is_zero() {
            return self;
        }
        let (quotient, inexact) = limbs::quotient(&self.mantissa, &b.mantissa);
        // One limb below the quotient says whether something is left over.
        let mut wide: Wide = bits_from(&quotient, -64);
        wide[0] = inexact as u64;
        let exponent = self.exponent - b.exponent - BITS - 64;
        rounded(self.negative != b.negative, &wide, exponent, rounding)
    }
}

/// The mantissa in the upper half of the bits below the carry, moved down by `shift`. What would
/// fall out below is less than half of the larger mantissa's last place, and one low bit for it
/// rounds to the same.
fn lowered(mantissa: &Mantissa, shift: i64) -> Wide {
    if shift <= BITS {
        return bits_from(mantissa, (shift - BITS) as isize);
    }
    let mut low = [0; WIDE];
    low[0] = 1;
    low
}

/// The number ± wide × 2^exponent, rounded to a mantissa.
fn rounded(negative: bool, wide: &Wide, exponent: i64, rounding: Rounding) -> Big {
    let zeros = leading_zeros(wide);
    if zeros == 64 * WIDE {
        return Big::ZERO;
    }
    let cut = (64 * WIDE - zeros) as isize - BITS as isize;
    let mut mantissa: Mantissa = bits_from(wide, cut);
    let mut exponent = exponent + cut as i64;
    let away = (rounding == Rounding::Up) != negative;
    if away && cut > 0 && any_below(wide, cut as usize) {
        let mut one = [0; LIMBS];
        one[0] = 1;
        if limbs::add(&mut mantissa, &one) {
            // All bits were 1: the next number is a power of two.
            mantissa[LIMBS - 1] = 1 << 63;
            exponent += 1;
        }
    }
    Big { negative, exponent, mantissa }
}

impl Neg for Big {
    type Output = Self;
    fn neg(self) -> Self {
        if self.is_zero() { self } else { Self { negative: !self.negative, ..self } }
    }
}

impl PartialOrd for Big {
    fn partial_cmp(&self, b: &Self) -> Option<Ordering> {
        Some(self.cmp(b))
    }
}

impl Ord for Big {
    fn cmp(&self, b: &Self) -> Ordering {
        match (self.sign(), b.sign()) {
            (1, 1) => self.magnitude(b),
            (-1, -1) => b.magnitude(self),
            (one, other) => one.cmp(&other),
        }
    }
}

impl Big {
    fn sign(&self) -> i8 {
        match (self.is_zero(), self.negative) {
            (true, _) => 0,
            (_, true) => -1,
            (_, false) => 1,
        }
    }

    /// Compares the sizes of two numbers that are not zero.
    fn magnitude(&self, b: &Self) -> Ordering {
        let limbs = || self.mantissa.iter().rev().cmp(b.mantissa.iter().rev());
        self.exponent.cmp(&b.exponent).then_with(limbs)
    }
}
