//! The rules for ranges.

use oracle::double::Double;
use oracle::failure::unless_failed;
use oracle::random::Random;
use oracle::range::Range;
use oracle::shims::num_dual::DualNum;

const SMALLEST: f64 = f64::from_bits(1);

fn point(v: f64) -> Range {
    Range::point(v)
}

fn range(lower: f64, upper: f64) -> Range {
    Range { lower, upper }
}

/// The range, or `None` where a rule fails.
fn work(f: impl FnOnce() -> Range) -> Option<Range> {
    unless_failed(f)
}

/// Equal ends by bits, so that −0 is told from +0.
fn same(a: Range, b: Range) -> bool {
    (a.lower.to_bits(), a.upper.to_bits()) == (b.lower.to_bits(), b.upper.to_bits())
}

#[test]
fn ends_move_outwards() {
    let two = range(2.0_f64.next_down(), 2.0_f64.next_up());
    assert_eq!(two, range(2.0 - 2f64.powi(-52), 2.0 + 2f64.powi(-51)));
    assert!(same(point(1.0) + point(1.0), two));
    assert!(same(point(1.0) * point(2.0), two));
    assert!(same(point(2.0) / point(1.0), two));
    assert!(same(point(-1.0) - point(1.0), -two));
    assert!(same(point(1.0) - point(1.0), range(-SMALLEST, SMALLEST)));
    assert!(same(point(4.0).sqrt(), two));
}

#[test]
fn products_and_quotients_take_the_least_and_greatest() {
    let product = range(-2.0, 3.0) * range(-5.0, 4.0);
    assert!(same(product, range((-15.0_f64).next_down(), 12.0_f64.next_up())));
    let quotient = range(-2.0, 4.0) / range(-2.0, -1.0);
    assert!(same(quotient, range((-4.0_f64).next_down(), 2.0_f64.next_up())));
}

#[test]
fn zero_is_exact() {
    let zero = Range::ZERO;
    let v = range(-1.0, 3.0);
    for result in [zero * point(5.0), v * zero, zero / point(3.0), zero.sqrt(), -zero, zero + zero]
    {
        assert!(same(result, zero));
    }
    assert!(same(zero + v, v));
    assert!(same(v - zero, v));
    assert!(same(zero - v, range(-3.0, 1.0)));
    assert!(same(zero.powf(point(1.2187)), zero));
    assert!(same(zero.exp(), Range::ONE));
    assert!(same(point(-0.0), zero));
}

#[test]
fn an_end_of_zero_is_positive() {
    assert!(same(-range(0.0, 1.0), range(-1.0, 0.0)));
    let up_to_zero = range(-1.0, -SMALLEST) * Range::ONE;
    assert!(same(up_to_zero, range((-1.0_f64).next_down(), 0.0)));
}

#[test]
fn other_powers_than_2_and_4_are_products() {
    for v in [point(3.0), range(-1.0, 2.0), range(-3.0, -2.0), range(0.0, 0.1), Range::ZERO] {
        assert!(same(v.powi(0), Range::ONE));
        assert!(same(v.powi(1), v));
        assert!(same(v.powi(3), v * v * v));
        assert!(same(v.powi(5), v * v * v * v * v));
        assert!(same(v.powi(6), v * v * v * v * v * v));
    }
    let v = range(-1.0, 1.0);
    assert!((v * v).lower < 0.0 && v.powi(6).lower < 0.0);
}

#[test]
fn squares_go_by_magnitudes() {
    let square = |lower, upper| range(lower, upper).powi(2);
    let apart = range(4.0_f64.next_down(), 9.0_f64.next_up());
    assert!(same(square(2.0, 3.0), apart));
    assert!(same(square(-3.0, -2.0), apart));
    let holds_zero = range(0.0, 9.0_f64.next_up());
    for lower in [-3.0, -2.0, -SMALLEST, 0.0] {
        assert!(same(square(lower, 3.0), holds_zero));
        assert!(same(square(-3.0, -lower), holds_zero));
    }
    assert!(same(square(0.0, 0.0), Range::ZERO));
    assert!(same(square(-0.0, -0.0), Range::ZERO));
}

/// (reduced density − 0.4)² of B3's u-fraction, at a reduced density of 0.4 but for rounding.
#[test]
fn the_square_of_a_bracket_around_zero_is_not_below_zero() {
    let bracket = point(0.1) * point(4.0) - point(0.4);
    assert!(bracket.lower < 0.0 && bracket.upper > 0.0);
    assert!((bracket * bracket).lower < 0.0);
    assert_eq!(bracket.powi(2).lower, 0.0);
}

#[test]
fn squares_of_small_magnitudes_are_not_below_zero() {
    assert!(same(point(SMALLEST).powi(2), range(0.0, SMALLEST)));
    assert!(same(range(-SMALLEST, SMALLEST).powi(2), range(0.0, SMALLEST)));
    // Its square is the smallest double, which moves down to 0.
    let root = point(2f64.powi(-537));
    assert!(same(root.powi(2), range(0.0, 2.0 * SMALLEST)));
    assert!(same((-root).powi(2), root.powi(2)));
    assert!(point(SMALLEST) * point(SMALLEST) == range(-SMALLEST, SMALLEST));
}

/// From the left, so not the square of the square.
#[test]
fn fourth_powers_move_the_ends_at_every_product() {
    let fourth = |lower, upper| range(lower, upper).powi(4);
    let below = |m: f64| (1..4).fold(m, |power, _| (power * m).next_down());
    let above = |m: f64| (1..4).fold(m, |power, _| (power * m).next_up());
    let apart = range(below(2.1), above(3.3));
    assert!(same(fourth(2.1, 3.3), apart));
    assert!(same(fourth(-3.3, -2.1), apart));
    assert!(same(fourth(-2.1, 3.3), range(0.0, above(3.3))));
    assert!(same(fourth(-3.3, 0.0), range(0.0, above(3.3))));
    assert!(!same(range(2.1, 3.3).powi(2).powi(2), apart));
    assert!(same(fourth(0.0, 0.0), Range::ZERO));
    // The lower end is 0 after the first product and stays.
    let small = point(1e-200);
    assert!(same(small.powi(4), range(0.0, SMALLEST)));
}

/// The square and the fourth power of a double between the ends.
#[test]
fn even_powers_hold_the_double() {
    let mut random = Random::new(3);
    for _ in 0..20_000 {
        let lower = random.between([-2.0, 1.0]);
        let upper = random.between([lower, 2.0]);
        let (v, around) = (random.between([lower, upper]), range(lower, upper));
        for k in [2, 4] {
            let (result, value) = (around.powi(k), Double::point(v).powi(k).value());
            assert!(0.0 <= result.lower && result.lower <= value && value <= result.upper, "{v}");
            assert_eq!(result.lower == 0.0, lower <= 0.0 && upper >= 0.0, "{v}");
        }
    }
}

#[test]
fn rules_that_fail() {
    let largest = point(f64::MAX);
    assert_eq!(work(|| largest + point(1.0)), None);
    assert_eq!(work(|| -largest - largest), None);
    assert_eq!(work(|| point(1.0) / range(-1.0, 1.0)), None);
    assert_eq!(work(|| Range::ZERO / range(0.0, 1.0)), None);
    assert_eq!(work(|| range(-SMALLEST, 1.0).sqrt()), None);
    assert_eq!(work(|| point(2f64.powi(512)).powi(2)), None);
    assert_eq!(work(|| range(-2f64.powi(512), 1.0).powi(2)), None);
    assert_eq!(work(|| range(0.0, 2f64.powi(256)).powi(4)), None);
    assert_eq!(work(|| range(0.0, 1.0).ln()), None);
    assert_eq!(work(|| Range::ZERO.powf(Range::ZERO)), None);
    assert_eq!(work(|| range(0.0, 1.0).powf(Range::ONE)), None);
    assert_eq!(work(|| point(-1.0).ln_1p()), None);
    assert_eq!(work(|| range(699.9999, 700.0_f64.next_up()).exp()), None);
}

#[test]
fn two_cases_of_one_rule_fail() {
    assert_eq!(work(|| range(1.5_f64.next_down(), 1.5).ln()), None);
    assert_eq!(work(|| range(0.2, 0.3).ln_1p()), None);
    assert_eq!(work(|| range(-0.3, -0.2).ln_1p()), None);
    assert_eq!(work(|| range(-0.3, 0.3).ln_1p()), None);
    assert_eq!(work(|| range(0.34, 0.35).exp()), None);
    assert_eq!(work(|| range((-700.0_f64).next_down(), -700.0).exp()), None);
    assert_eq!(work(|| range(20.0, 20.0_f64.next_up()).tanh()), None);
    assert_eq!(work(|| range((-20.0_f64).next_down(), -20.0).tanh()), None);
}

#[test]
fn one_case_at_its_limit() {
    assert!(work(|| range(0.75, 1.5_f64.next_down()).ln()).is_some());
    assert!(work(|| range(-0.25, 0.25).ln_1p()).is_some());
    assert!(work(|| point(0.25_f64.next_up()).ln_1p()).is_some());
    let largest = point(2f64.powi(512).next_down()).powi(2);
    assert_eq!(largest.upper, f64::MAX);
    assert!(work(|| point(700.0).exp()).is_some());
    assert!(work(|| point(-700.0).exp()).is_some());
    assert_eq!(work(|| point((-700.0_f64).next_down()).exp()), Some(Range::ZERO));
    assert!(work(|| range(19.97, 20.0).tanh()).is_some());
    assert_eq!(work(|| range(20.5, 30.0).tanh()), Some(Range::ONE));
    assert_eq!(work(|| range(-30.0, -20.5).tanh()), Some(-Range::ONE));
    assert!(work(|| range(0.0, 4.0).sqrt()).is_some_and(|r| r.lower == -SMALLEST));
}

/// The test at 175 in `u_fraction_wca`.
#[test]
fn strictly_below() {
    let limit = point(175.0);
    assert_eq!(unless_failed(|| range(174.0, 175.0_f64.next_down()) < limit), Some(true));
    assert_eq!(unless_failed(|| range(175.0, 176.0) < limit), Some(false));
    assert_eq!(unless_failed(|| range(174.0, 175.0) < limit), None);
    assert_eq!(unless_failed(|| range(174.0, 176.0) < limit), None);
}

/// Where a range has a result, it holds that of a double between its ends.
#[test]
fn functions_hold_the_double() {
    type Pair = (fn(Range) -> Range, fn(Double) -> Double, [f64; 2]);
    let functions: [Pair; 5] = [
        (Range::ln, Double::ln, [0.01, 100.0]),
        (Range::ln_1p, Double::ln_1p, [-0.99, 10.0]),
        (Range::exp, Double::exp, [-705.0, 700.0]),
        (Range::tanh, Double::tanh, [-22.0, 22.0]),
        (Range::sqrt, Double::sqrt, [0.0, 10.0]),
    ];
    let mut random = Random::new(2);
    for (in_ranges, in_doubles, interval) in functions {
        for _ in 0..5_000 {
            let v = random.between(interval);
            let around = range(v * (1.0 - 1e-12 * v.signum()), v * (1.0 + 1e-12 * v.signum()));
            let value = in_doubles(Double::point(v)).value();
            if let Some(result) = work(|| in_ranges(around)) {
                assert!(result.lower <= value && value <= result.upper, "at {v}");
                assert!(result.upper - result.lower < 1e-8 * value.abs().max(1.0), "at {v}");
            }
        }
    }
}
