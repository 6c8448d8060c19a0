//! The rules for slopes, and the slopes of records against their energies.

use oracle::answer::{answer_slopes, energies, slopes};
use oracle::dual::Dual;
use oracle::failure::{Rule, or_first_failure};
use oracle::random::Random;
use oracle::record::{Case, code, read};
use oracle::shims::num_dual::DualNum;
use oracle::{generator, over_slopes};

fn dual(v: f64, slope: f64) -> Dual {
    Dual::point(v).with_slope(slope)
}

/// Value and slope by bits, or the rule that counts.
fn work(f: impl FnOnce() -> Dual) -> Result<[u64; 2], Rule> {
    or_first_failure(f).map(|r| [r.value(), r.slope()].map(f64::to_bits))
}

fn is(v: f64, slope: f64) -> Result<[u64; 2], Rule> {
    Ok([v, slope].map(f64::to_bits))
}

/// A value whose slope is not finite by the sum that makes it.
fn infinite(v: f64) -> Dual {
    dual(v, f64::MAX) + dual(0.0, f64::MAX)
}

#[test]
fn basic_rules() {
    let (a, b) = (dual(3.0, 2.0), dual(4.0, -7.0));
    assert_eq!(work(|| -a), is(-3.0, -2.0));
    assert_eq!(work(|| a + b), is(7.0, -5.0));
    assert_eq!(work(|| a - b), is(-1.0, 9.0));
    assert_eq!(work(|| a * b), is(12.0, 8.0 - 21.0));
    assert_eq!(work(|| a / b), is(0.75, 29.0 / 16.0));
    assert_eq!(work(|| b.recip()), is(0.25, 7.0 / 16.0));
    assert_eq!(work(|| b.sqrt()), is(2.0, -1.75));
}

/// Each operation rounds once, and a constant takes no short way.
#[test]
fn rules_as_written() {
    let (a, b) = (dual(0.7, 0.1), dual(0.3, 1.1));
    assert_eq!(work(|| a * b), is(0.7 * 0.3, 0.1 * 0.3 + 0.7 * 1.1));
    let quotient = (0.1 * 0.3 - 0.7 * 1.1) / (0.3 * 0.3);
    assert_eq!(work(|| a / b), is(0.7 / 0.3, quotient));
    let by_constant = (0.1 * 0.3 - 0.7 * 0.0) / (0.3 * 0.3);
    assert_ne!(by_constant, 0.1 / 0.3);
    assert_eq!(work(|| a / Dual::point(0.3)), is(0.7 / 0.3, by_constant));
    let root = 0.7_f64.sqrt();
    assert_eq!(work(|| a.sqrt()), is(root, 0.1 / (2.0 * root)));
}

#[test]
fn functions() {
    for v in [0.1, 0.2, 0.3, 2.0, 7.5] {
        let a = dual(v, 0.3);
        let value = |f: fn(Dual) -> Dual| f(Dual::point(v)).value();
        assert_eq!(work(|| a.ln()), is(value(Dual::ln), 0.3 / v));
        assert_eq!(work(|| a.ln_1p()), is(value(Dual::ln_1p), 0.3 / (1.0 + v)));
        assert_eq!(work(|| a.exp()), is(value(Dual::exp), 0.3 * value(Dual::exp)));
        // By the rules of their parts.
        let b = dual(1.7, -0.6);
        assert_eq!(work(|| a.powd(b)), work(|| (b * a.ln()).exp()));
        let (one, two) = (Dual::point(1.0), Dual::point(2.0));
        assert_eq!(work(|| a.tanh()), work(|| one - two / ((two * a).exp() + one)));
    }
    // Of a constant exponent, with what the product rule makes of its slope +0.
    let (base, exponent) = (dual(1.5, 0.5), Dual::point(1.2));
    let value = Dual::point(1.5).powf(exponent).value();
    let slope = (0.0 * Dual::point(1.5).ln().value() + 1.2 * (0.5 / 1.5)) * value;
    assert_eq!(work(|| base.powf(exponent)), is(value, slope));
}

#[test]
fn whole_powers() {
    let a = dual(1.1, 0.3);
    assert_eq!(work(|| a.powi(0)), is(1.0, 0.0));
    assert_eq!(work(|| dual(1.1, -0.0).powi(1)), is(1.1, -0.0));
    let square = 0.3 * 1.1 + 1.1 * 0.3;
    assert_eq!(work(|| a.powi(2)), is(1.1 * 1.1, square));
    assert_eq!(work(|| a.powi(3)), is(1.1 * 1.1 * 1.1, square * 1.1 + 1.1 * 1.1 * 0.3));
}

#[test]
fn constant_cases_have_slope_zero() {
    let power = |v: f64, slope| dual(v, slope).powf(Dual::point(1.2187));
    assert_eq!(work(|| dual((-700.0_f64).next_down(), 3.0).exp()), is(0.0, 0.0));
    assert_eq!(work(|| dual(20.0_f64.next_up(), -3.0).tanh()), is(1.0, 0.0));
    assert_eq!(work(|| dual((-20.0_f64).next_down(), 3.0).tanh()), is(-1.0, 0.0));
    assert_eq!(work(|| power(0.0, -3.0)), is(0.0, 0.0));
    assert_eq!(work(|| power(-0.0, 3.0)), is(0.0, 0.0));
    // At the limits themselves the rules hold.
    assert!(dual(-700.0, 3.0).exp().slope() > 0.0);
    assert!(dual(20.0, 3.0).tanh().slope() > 0.0);
    assert!(power(f64::MIN_POSITIVE, 1e-9).slope() == 0.0);
}

#[test]
fn a_constant_case_loses_no_slope_that_is_not_finite() {
    let power = |v| infinite(v).powf(Dual::point(4.2773));
    assert_eq!(work(|| infinite(-701.0).exp()), Err(Rule::Slope));
    assert_eq!(work(|| infinite(21.0).tanh()), Err(Rule::Slope));
    assert_eq!(work(|| infinite(-21.0).tanh()), Err(Rule::Slope));
    assert_eq!(work(|| power(0.0)), Err(Rule::Slope));
    assert_eq!(work(|| infinite(1.0).powi(0)), Err(Rule::Slope));
    assert_eq!(work(|| infinite(1.0) * Dual::point(0.0)), Err(Rule::Slope));
    assert_eq!(work(|| Dual::point(1.0) / infinite(1e200)), Err(Rule::Slope));
    assert_eq!(or_first_failure(|| infinite(174.0) < Dual::point(175.0)), Err(Rule::Slope));
}

#[test]
fn only_the_slope_of_a_result_is_tested() {
    let (one, small, great) = (Dual::point(1.0), Dual::point(1e-200), Dual::point(1e200));
    // b × b is 0, or infinite.
    assert_eq!(work(|| small / small), Err(Rule::Slope));
    assert_eq!(work(|| dual(1e-200, 1.0) / small), Err(Rule::Slope));
    assert_eq!(work(|| one / great), is(1e-200, 0.0));
    assert_eq!(work(|| dual(1.0, 3.0) / great), is(1e-200, 0.0));
    assert_eq!(work(|| dual(1.0, f64::MAX) / great), Err(Rule::Slope));
    assert_eq!(work(|| Dual::point(0.0).sqrt()), Err(Rule::Slope));
    assert_eq!(work(|| dual(0.0, 1.0).sqrt()), Err(Rule::Slope));
    assert_eq!(work(|| dual(f64::from_bits(1), 1.0).ln()), Err(Rule::Slope));
}

#[test]
fn a_failing_value_comes_before_a_slope() {
    let zero = Dual::point(0.0);
    assert_eq!(work(|| infinite(1.0) / zero), Err(Rule::NotFinite));
    assert_eq!(work(|| -infinite(1.0).sqrt() * Dual::point(f64::MAX)), Err(Rule::Slope));
    assert_eq!(work(|| (-infinite(1.0)).sqrt()), Err(Rule::Root));
    assert_eq!(work(|| (-infinite(1.0)).ln() / zero), Err(Rule::Base));
    assert_eq!(work(|| zero.powf(zero)), Err(Rule::Base));
    assert_eq!(work(|| infinite(701.0).exp()), Err(Rule::ExpAbove));
}

#[test]
fn cases_are_chosen_by_the_value() {
    let limit = Dual::point(175.0);
    assert!(dual(175.0_f64.next_down(), 9.0) < limit);
    assert!(dual(175.0, -9.0) >= limit);
}

#[test]
fn signs_of_zero() {
    assert_eq!(work(|| dual(1.0, -0.0)), is(1.0, -0.0));
    assert_eq!(work(|| Dual::point(-2.0)), is(-2.0, 0.0));
    assert_eq!(work(|| -Dual::point(2.0)), is(-2.0, -0.0));
    assert_eq!(work(|| Dual::zero() + dual(1.0, -0.0)), is(1.0, 0.0));
    assert_eq!(work(|| dual(1.0, -0.0) * Dual::point(3.0)), is(3.0, 0.0));
    assert_eq!(work(|| dual(1.0, -0.0) * Dual::point(-3.0)), is(-3.0, 0.0));
    assert_eq!(work(|| dual(-1.0, -0.0) * Dual::point(3.0)), is(-3.0, -0.0));
}

fn pure(perturbation: u8, [rep, att, sigma, epsilon_k]: [f64; 4], t: f64, density: f64) -> Case {
    Case {
        perturbation,
        substances: vec![[rep, att, sigma, epsilon_k]],
        k_ij: vec![],
        l_ij: None,
        temperature: t,
        partial_density: vec![density],
        molefracs: vec![1.0],
    }
}

const METHANE: [f64; 4] = [12.65, 6.0, 3.74, 153.5];

#[test]
fn the_answer() {
    let record = pure(1, METHANE, 300.0, 0.005).record();
    let mut buffer = [0xAA; 60];
    assert_eq!(answer_slopes(&record, &mut buffer[..51]), code::ANSWER_BUFFER);
    assert_eq!(answer_slopes(&[], &mut buffer[..51]), code::ANSWER_BUFFER);
    assert_eq!(buffer, [0xAA; 60]);
    assert_eq!(answer_slopes(&[], &mut buffer[..52]), code::ENVELOPE);
    assert_eq!(buffer[..5], [0, 2, 1, 2, 0xAA]);
    assert_eq!(answer_slopes(&record, &mut buffer), 0);
    assert_eq!(buffer[..4], [0, 50, 1, 0]);
    let expected = slopes(&read(&record).expect("a case")).expect("slopes");
    let doubles = buffer[4..52].chunks(8).map(|b| f64::from_be_bytes(b.try_into().expect("8")));
    assert!(doubles.eq(expected));
    assert!(buffer[52..].iter().all(|&byte| byte == 0xAA));
}

/// BH works ln of the density: its slope 1/density, times 4.2773, is not finite below 2.38e-308.
#[test]
fn a_density_too_small_for_its_logarithm() {
    let codes = |density: f64| [0, 1, 2].map(|p| slopes(&pure(p, METHANE, 300.0, density)).err());
    for density in [f64::from_bits(1), 5e-309, f64::MIN_POSITIVE, 2.37e-308] {
        assert_eq!(codes(density), [Some(code::SLOPES), None, None], "{density:e}");
    }
    for density in [0.0, -0.0, 2.39e-308, 1e-300] {
        assert_eq!(codes(density), [None; 3], "{density:e}");
    }
}

/// Cold and large: (1 − u_fraction) × virial is finite at density 0, and its slope is not.
#[test]
fn a_virial_coefficient_too_great_for_a_slope() {
    let cold = |p, epsilon_k| pure(p, [12.65, 6.0, 10.0, epsilon_k], 2.0, 0.0);
    let codes = |p| [1300.0, 1390.0, 1396.0].map(|e| slopes(&cold(p, e)).err());
    assert_eq!(codes(1), [None, Some(code::SLOPES), Some(code::ARITHMETIC)]);
    assert_eq!(codes(2), [None; 3]);
    let energies = energies(&cold(1, 1390.0)).expect("energies");
    assert!(energies.iter().all(|energy| *energy == 0.0));
}

/// BH's logarithm of the density fails in its slope, and later the virial coefficient in its value.
#[test]
fn a_slope_fails_before_a_value() {
    let cold = |epsilon_k| pure(0, [12.65, 6.0, 10.0, epsilon_k], 2.0, f64::from_bits(1));
    assert_eq!(slopes(&cold(1300.0)), Err(code::SLOPES));
    assert_eq!(slopes(&cold(1396.0)), Err(code::ARITHMETIC));
    assert_eq!(energies(&cold(1396.0)), Err(code::ARITHMETIC));
}

/// The values are the energies to the bit, 9 is theirs, and 11 comes only where there are energies.
#[test]
fn values_are_the_energies() {
    let mut without = 0;
    for (kind, make) in generator::KINDS {
        let mut random = Random::new(6);
        let mut with = 0;
        for case in (0..600).filter_map(|_| read(&make(&mut random)).ok()) {
            match (energies(&case), slopes(&case)) {
                (Ok(energies), Ok(slopes)) => {
                    let values = [slopes[0], slopes[2], slopes[4]];
                    assert_eq!(energies.map(f64::to_bits), values.map(f64::to_bits), "{case:?}");
                    with += 1;
                }
                (Ok(_), Err(code)) => {
                    assert_eq!(code, code::SLOPES, "{case:?}");
                    without += 1;
                }
                (Err(code), slopes) => assert_eq!(slopes, Err(code), "{case:?}"),
            }
        }
        assert!(with > 30, "{kind}");
    }
    assert!(without > 30);
}

/// A fraction of −0 is as good as one of +0, but its density starts with the slope −0.
#[test]
fn fractions_of_zero() {
    for perturbation in [0, 1, 2] {
        let case = |zero: f64, density: f64| Case {
            perturbation,
            substances: vec![METHANE, [12.26, 6.0, 3.41, 118.0]],
            k_ij: vec![0.01],
            l_ij: None,
            temperature: 250.0,
            partial_density: vec![density, 0.001],
            molefracs: vec![1.0, zero],
        };
        let bits = |case: &Case| slopes(case).expect("slopes").map(f64::to_bits);
        assert_eq!(bits(&case(0.0, 0.004)), bits(&case(-0.0, 0.004)));
        let zeros = over_slopes::contributions(&case(-0.0, 0.0));
        assert!(zeros.iter().all(|term| term.slope().is_finite()));
    }
}

/// The greatest distance of a slope from the central difference of its energy, in parts of the greatest
/// of the three slopes and energies over density. Each density moves by its fraction.
fn from_differences(case: &Case) -> Option<f64> {
    let total: f64 = case.partial_density.iter().sum();
    let step = 1e-4 * total;
    let moved = |step: f64| {
        let pairs = case.partial_density.iter().zip(&case.molefracs);
        let partial_density = pairs.map(|(v, x)| v + x * step).collect();
        energies(&Case { partial_density, ..case.clone() }).ok()
    };
    // Of two steps, so that the third derivative drops out.
    let [far, near, below, under] = [2.0, 1.0, -1.0, -2.0].map(|times| moved(times * step));
    let (far, near, below, under) = (far?, near?, below?, under?);
    let slopes = slopes(case).ok()?;
    let scales = slopes.chunks(2).map(|pair| pair[1].abs().max(pair[0].abs() / total));
    let scale = scales.reduce(f64::max)?;
    let distance = |i: usize| {
        let difference = (8.0 * (near[i] - below[i]) - (far[i] - under[i])) / (12.0 * step);
        (slopes[2 * i + 1] - difference).abs() / scale
    };
    (0..3).map(distance).reduce(f64::max)
}

#[test]
fn slopes_are_near_central_differences() {
    for kind in ["realistic", "zero-fraction"] {
        let make = generator::kind(kind).expect("a known kind");
        let mut random = Random::new(8);
        let cases = (0..600).filter_map(|_| read(&make(&mut random)).ok());
        let mut distances: Vec<f64> = cases.filter_map(|case| from_differences(&case)).collect();
        assert!(distances.len() > 500, "{kind}");
        distances.sort_by(f64::total_cmp);
        let [median, greatest] = [distances.len() / 2, distances.len() - 1].map(|at| distances[at]);
        assert!(median < 1e-11 && greatest < 1e-9, "{kind}: {median:e}, {greatest:e}");
    }
}
