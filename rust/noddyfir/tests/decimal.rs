//! The certain figures at their boundaries, and printing that only ever moves outwards.

use noddyfir::Range;
use noddyfir::decimal::{ALL_FIGURES, Decimal, PRINTED_FIGURES, marked};

fn certain(lower: f64, upper: f64) -> usize {
    Range { lower, upper }.certain_figures()
}

/// Numbers that repeat on every machine.
fn numbers(count: usize) -> impl Iterator<Item = u64> {
    let mut state = 0x9e37_79b9_7f4a_7c15u64;
    let next = move || {
        state ^= state << 13;
        state ^= state >> 7;
        state ^= state << 17;
        state
    };
    std::iter::repeat_with(next).take(count)
}

#[test]
fn around_a_power_of_ten_there_are_none() {
    assert_eq!(certain(0.9999, 1.0001), 0);
    assert_eq!(certain(-1.0001, -0.9999), 0);
    assert_eq!(certain(1.0f64.next_down(), 1.0), 0);
    // The double 0.3 is 0.29999999999999998.., so that it has figures in common with its neighbour below.
    assert_eq!(certain(0.3f64.next_down(), 0.3), 16);
    assert_eq!(certain(0.3, 0.3f64.next_up()), 0);
}

#[test]
fn a_change_of_sign_and_zero_leave_none() {
    assert_eq!(certain(-1e-300, 1e-300), 0);
    assert_eq!(certain(0.0, 5e-324), 0);
    assert_eq!(certain(-5e-324, 0.0), 0);
    assert_eq!(certain(-2.5, 2.5), 0);
}

#[test]
fn equal_ends_leave_nothing_uncertain() {
    for end in [0.0, 1.0, -0.1, 5e-324, f64::MAX] {
        assert_eq!(certain(end, end), ALL_FIGURES);
    }
    assert_eq!(marked(0.25, ALL_FIGURES), "0.25");
    assert_eq!(marked(0.0, ALL_FIGURES), "0");
    assert_eq!(marked(-0.0, ALL_FIGURES), "0");
}

#[test]
fn figures_in_common_are_counted_from_the_first_that_is_not_zero() {
    assert_eq!(certain(0.5, 0.50390625), 2);
    assert_eq!(certain(0.00123, 0.00124), 2);
    assert_eq!(certain(12345.0, 12346.0), 4);
    assert_eq!(certain(-12346.0, -12345.0), 4);
    assert_eq!(certain(1.0, 1.0f64.next_up()), 16);
    assert_eq!(certain(9.0, 10.0), 0);
    assert_eq!(certain(1.0, 9.0), 0);
    assert_eq!(certain(10.0, 19.0), 1);
    assert_eq!(certain(1.2e300, 1.2e301), 0);
    assert_eq!(certain(5e-324, 1e-323), 0);
}

/// Different doubles never count as many figures as equal ones, and the figures are common to the ends as cut.
#[test]
fn neighbours_have_at_most_sixteen() {
    for bits in numbers(2000) {
        let lower = f64::from_bits(bits & 0x7fef_ffff_ffff_fffe);
        let figures = certain(lower, lower.next_up());
        assert!(figures < ALL_FIGURES, "{lower:e}");
        if figures > 0 {
            let cut = |double: f64| Decimal::exact(double).cut(figures);
            assert_eq!(cut(lower), cut(lower.next_up()));
        }
        assert_eq!(figures, certain(-lower.next_up(), -lower));
    }
}

/// A reading of the text gives the double back, and an end is never inside.
#[test]
fn printed_ends_are_outwards_and_still_the_same_doubles() {
    for bits in numbers(2000) {
        let double = f64::from_bits(bits);
        if !double.is_finite() {
            continue;
        }
        let point = Range { lower: double, upper: double };
        let texts = point.outwards(PRINTED_FIGURES).map(|end| end.to_string());
        assert!(texts.iter().all(|text| text.parse() == Ok(double)), "{double:e}: {texts:?}");
        // Fewer figures show on which side the text is.
        let [lower, upper] = point.outwards(8).map(|end| end.to_string().parse::<f64>().unwrap());
        assert!(lower <= double && double <= upper, "{double:e}");
        assert!(lower < upper || Decimal::exact(double).cut(8).to_string().parse() == Ok(double));
    }
}

#[test]
fn the_bar_stands_behind_the_certain_figures() {
    assert_eq!(marked(0.125, 2), "0.12|5000000000000000");
    assert_eq!(marked(-1234.5, 4), "-1234.|50000000000000");
    assert_eq!(marked(-1234.5, 2), "-12|34.50000000000000");
    assert_eq!(marked(-0.125, 0), "|-0.125000000000000000");
    assert_eq!(marked(1e-7, 3), "9.99|999999999999954e-8");
    assert_eq!(marked(2.0f64.powi(70), 1), "1.|18059162071741130e21");
    assert_eq!(marked(0.0, 0), "|0.00000000000000000");
}

#[test]
fn the_width_is_never_too_small() {
    let width = |lower, upper| Range { lower, upper }.width().to_string();
    assert_eq!(width(1.0, 1.0f64.next_up()), "2.3e-16");
    assert_eq!(width(-f64::MAX, f64::MAX), "3.6e308");
    assert_eq!(width(0.0, 5e-324), "9.9e-324");
}

#[test]
fn the_least_double_is_printed_whole() {
    let text = Decimal::exact(5e-324).to_string();
    assert!(text.starts_with("4.9406564584124654417656879286822137236505980"));
    assert!(text.ends_with("5625e-324"));
    assert_eq!(text.len(), "4.".len() + 750 + "e-324".len());
}
