//! The stand-ins on doubles against exact cases, the library's functions and the limits of their
//! rules.

use oracle::double::Double;
use oracle::failure::unless_failed;
use oracle::random::Random;
use oracle::shims::num_dual::DualNum;

type Function = fn(Double) -> Double;

/// The value, or `None` where the function has no rule.
fn at(f: Function, v: f64) -> Option<f64> {
    unless_failed(|| f(Double::point(v)).value())
}

fn power(v: f64, b: f64) -> Option<f64> {
    unless_failed(|| Double::point(v).powf(Double::point(b)).value())
}

/// The greatest error, in parts of the greater of the value and `unit`.
fn error(f: Function, library: fn(f64) -> f64, interval: [f64; 2], unit: f64) -> f64 {
    let mut random = Random::new(1);
    let mut greatest: f64 = 0.0;
    for _ in 0..20_000 {
        let v = random.between(interval);
        let (ours, expected) = (at(f, v).expect("a value"), library(v));
        greatest = greatest.max((ours - expected).abs() / expected.abs().max(unit));
    }
    greatest
}

#[test]
fn exact_cases() {
    assert_eq!(at(Double::sqrt, 2.25), Some(1.5));
    assert_eq!(at(Double::ln, 1.0), Some(0.0));
    assert_eq!(at(Double::ln_1p, 0.0), Some(0.0));
    assert_eq!(at(Double::exp, 0.0), Some(1.0));
    assert_eq!(at(Double::tanh, 0.0), Some(0.0));
    assert_eq!(power(0.0, 1.2187), Some(0.0));
    assert_eq!(power(-0.0, 1.2187).map(f64::to_bits), Some(0));
    assert_eq!(power(7.5, 0.0), Some(1.0));
    assert_eq!(at(Double::recip, 4.0), Some(0.25));
}

#[test]
fn powi_is_the_product_from_the_left() {
    let v = 1.1_f64;
    let powers = [1.0, v, v * v, v * v * v, v * v * v * v];
    for (k, expected) in powers.into_iter().enumerate() {
        assert_eq!(Double::point(v).powi(k as i32).value(), expected);
    }
}

#[test]
fn near_the_library() {
    assert!(error(Double::ln, f64::ln, [0.01, 100.0], 0.1) < 1e-15);
    assert!(error(Double::ln, f64::ln, [1e-300, 1e300], 0.1) < 1e-15);
    assert!(error(Double::ln_1p, f64::ln_1p, [-0.25, 0.25], 0.0) < 1e-15);
    assert!(error(Double::ln_1p, f64::ln_1p, [-0.99, 50.0], 0.1) < 1e-15);
    assert!(error(Double::exp, f64::exp, [-700.0, 700.0], 0.0) < 1e-15);
    assert!(error(Double::tanh, f64::tanh, [-25.0, 25.0], 0.5) < 1e-15);
    assert!(error(Double::tanh, f64::tanh, [-1e-3, 1e-3], 1.0) < 1e-15);
    assert!(error(|v| v.powf(Double::point(1.25)), |v| v.powf(1.25), [0.1, 50.0], 0.0) < 3e-15);
}

#[test]
fn small_numbers() {
    for bits in [1, 2, 3, (1 << 52) - 1, 1 << 52] {
        let v = f64::from_bits(bits);
        let ours = at(Double::ln, v).expect("a value");
        assert!((ours - v.ln()).abs() < 1e-12, "ln of {v:e}");
    }
}

#[test]
fn limits_of_the_rules() {
    assert_eq!(at(Double::sqrt, -f64::MIN_POSITIVE), None);
    assert_eq!(at(Double::sqrt, -0.0), Some(0.0));
    assert_eq!(at(Double::ln, 0.0), None);
    assert_eq!(at(Double::ln, -1.0), None);
    assert_eq!(at(Double::ln_1p, -1.0), None);
    assert!(at(Double::ln_1p, (-1.0_f64).next_up()).is_some());
    assert!(at(Double::exp, 700.0).is_some());
    assert_eq!(at(Double::exp, 700.0_f64.next_up()), None);
    assert!(at(Double::exp, -700.0) > Some(0.0));
    assert_eq!(at(Double::exp, (-700.0_f64).next_down()), Some(0.0));
    assert_eq!(at(Double::tanh, 20.0_f64.next_up()), Some(1.0));
    assert_eq!(at(Double::tanh, (-20.0_f64).next_down()), Some(-1.0));
    assert_eq!(power(0.0, 0.0), None);
    assert_eq!(power(0.0, -1.0), None);
    assert_eq!(power(-1.0, 2.0), None);
}

#[test]
fn a_value_that_is_not_finite_is_recorded() {
    let one = Double::point(1.0);
    let zero = Double::point(0.0);
    assert!(unless_failed(|| (one / zero).exp()).is_none());
    assert!(unless_failed(|| Double::point(f64::MAX) + Double::point(f64::MAX)).is_none());
    assert!(unless_failed(|| one + zero).is_some());
}
