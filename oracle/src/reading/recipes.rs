//! Document 01's recipes of ln, `ln_1p`, exp, powers and tanh in fractions. e, k and every other
//! case go by the exact argument.

use super::big::Big;
use super::enclosure::Enclosure;
use super::notes;
use crate::constants::{E, FACTORIAL_RECIPROCALS, G, H, L, ODD_RECIPROCALS};

const TWO: Enclosure = Enclosure::double(2.0);
const fn limit(v: f64) -> Big {
    Big::from_double(v)
}

/// Horner over the doubles of the coefficients, lowest power first.
fn horner<const N: usize>(x: Enclosure, coefficients: [f64; N]) -> Enclosure {
    let last = Enclosure::double(coefficients[N - 1]);
    let others = coefficients[..N - 1].iter().rev();
    others.fold(last, |p, &c| p * x + Enclosure::double(c))
}

/// (2s) × p, where p is the polynomial of ln and `ln_1p` in s × s.
fn logarithm_series(s: Enclosure) -> Enclosure {
    (TWO * s) * horner(s * s, ODD_RECIPROCALS)
}

/// The whole number that both ends give, noted as undecided if they give two.
fn agreed([lower, upper]: [i64; 2]) -> i64 {
    if lower != upper {
        notes::undecided();
    }
    lower
}

pub fn ln(v: Enclosure) -> Enclosure {
    if !v.above(Big::ZERO) {
        return Enclosure::without_result();
    }
    if v.lower <= Big::ZERO {
        // Noted as undecided.
        return Enclosure::ONE;
    }
    let e = agreed([v.lower.ln_exponent(), v.upper.ln_exponent()]);
    let m = v.scaled(-e);
    let s = (m - Enclosure::ONE) / (m + Enclosure::ONE);
    logarithm_series(s) + Enclosure::double(e as f64) * Enclosure::double(L)
}

pub fn ln_1p(v: Enclosure) -> Enclosure {
    if !v.above(limit(-1.0)) {
        Enclosure::without_result()
    } else if v.below(limit(-0.25)) || v.above(limit(0.25)) {
        ln(Enclosure::ONE + v)
    } else {
        logarithm_series(v / (TWO + v))
    }
}

pub fn exp(v: Enclosure) -> Enclosure {
    if v.below(limit(-700.0)) {
        return Enclosure::ZERO;
    }
    if v.above(limit(700.0)) {
        return Enclosure::without_result();
    }
    let t = v * Enclosure::double(E) + Enclosure::double(0.5);
    let k = agreed([t.lower.floor(), t.upper.floor()]);
    let times = |part| Enclosure::double(k as f64) * Enclosure::double(part);
    let r = (v - times(H)) - times(G);
    horner(r, FACTORIAL_RECIPROCALS).scaled(k)
}

pub fn power(v: Enclosure, b: Enclosure) -> Enclosure {
    if v == Enclosure::ZERO {
        return if b.above(Big::ZERO) { v } else { Enclosure::without_result() };
    }
    exp(b * ln(v))
}

pub fn tanh(v: Enclosure) -> Enclosure {
    if v.above(limit(20.0)) {
        Enclosure::ONE
    } else if v.below(limit(-20.0)) {
        -Enclosure::ONE
    } else {
        Enclosure::ONE - TWO / (exp(TWO * v) + Enclosure::ONE)
    }
}
