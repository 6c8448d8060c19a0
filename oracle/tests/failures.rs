//! The rule that fails first, and the operation at which a 12-6 substance has no ends.

use oracle::answer::failing_rule;
use oracle::dual::Dual;
use oracle::failure::{Rule, or_first_failure};
use oracle::range::Range;
use oracle::record::Case;
use oracle::shims::num_dual::DualNum;

fn point(v: f64) -> Range {
    Range::point(v)
}

fn range(lower: f64, upper: f64) -> Range {
    Range { lower, upper }
}

fn rule(work: impl FnOnce() -> Range) -> Option<Rule> {
    or_first_failure(work).err()
}

fn pure(perturbation: u8, rep: f64) -> Case {
    Case {
        perturbation,
        substances: vec![[rep, 6.0, 3.405, 119.8]],
        k_ij: vec![],
        l_ij: None,
        temperature: 150.3,
        partial_density: vec![0.0123],
        molefracs: vec![1.0],
    }
}

#[test]
fn each_rule_is_named() {
    let around = |v: f64| range(v.next_down(), v.next_up());
    assert_eq!(rule(|| point(f64::MAX) * point(2.0)), Some(Rule::NotFinite));
    assert_eq!(rule(|| point(1.0) / range(-1.0, 1.0)), Some(Rule::Divisor));
    assert_eq!(rule(|| range(-1.0, 1.0).sqrt()), Some(Rule::Root));
    assert_eq!(rule(|| range(0.0, 1.0).ln()), Some(Rule::Base));
    assert_eq!(rule(|| range(0.0, 1.0).powf(point(2.0))), Some(Rule::Base));
    assert_eq!(rule(|| point(-1.0).ln_1p()), Some(Rule::LogarithmArgument));
    assert_eq!(rule(|| around(700.0).exp()), Some(Rule::ExpAbove));
    assert_eq!(rule(|| around(1.5).ln()), Some(Rule::TwoE));
    assert_eq!(rule(|| range(0.34, 0.35).exp()), Some(Rule::TwoK));
    assert_eq!(rule(|| around(0.25).ln_1p()), Some(Rule::QuarterSides));
    assert_eq!(rule(|| around(-700.0).exp()), Some(Rule::UnderflowSides));
    assert_eq!(rule(|| around(20.0).tanh()), Some(Rule::TanhSides));
    let below = or_first_failure(|| around(175.0) < point(175.0));
    assert_eq!(below, Err(Rule::OmegaSides));
    let root = or_first_failure(|| Dual::point(0.0).sqrt());
    assert_eq!(root.err(), Some(Rule::Slope));
    assert_eq!(rule(|| point(1.0) + point(1.0)), None);
}

#[test]
fn the_first_failure_counts() {
    assert_eq!(rule(|| (point(1.0) / range(-1.0, 1.0)).ln().sqrt()), Some(Rule::Divisor));
    assert_eq!(rule(|| range(-1.0, 1.0).sqrt() / point(0.0)), Some(Rule::Root));
}

#[test]
fn rules_of_records() {
    let rules = |rep| [0, 1, 2].map(|perturbation| failing_rule(&pure(perturbation, rep)));
    assert_eq!(rules(12.0), [None, Some(Rule::TwoK), Some(Rule::TwoK)]);
    assert_eq!(rules(9.0), [Some(Rule::TwoE); 3]);
    assert_eq!(rules(12.26), [None; 3]);
}

/// The first power of `mean_field_constant(rep_x, att_x, rm_x)` under WCA and B3: rm_x is 2^(1/6),
/// so that rm_x^(−6 + 3) is 2^(−1/2), which lies where exp changes its k from −1 to 0.
#[test]
fn twelve_six_fails_at_the_power_of_the_minimum() {
    let [rep, att] = [12.0, 6.0].map(point);
    let minimum = || (rep / att).powd((rep - att).recip());
    assert_eq!(rule(minimum), None);
    assert_eq!(rule(|| minimum().ln()), None);
    let exponent = || (-att + point(3.0)) * minimum().ln();
    assert_eq!(rule(exponent), None);
    let place = exponent() * point(std::f64::consts::LOG2_E) + point(0.5);
    assert!(place.lower < 0.0 && place.upper > 0.0);
    assert_eq!(rule(|| minimum().powd(-att + point(3.0))), Some(Rule::TwoK));
}
