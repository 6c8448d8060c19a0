//! Exact readings: their recipes, their roots, and that the check of a record notices slips.

use oracle::answer::{ends, energies};
use oracle::over_readings::contributions;
use oracle::random::Random;
use oracle::range::Range;
use oracle::reading::Reading;
use oracle::reading::big::{Big, Rounding::Down};
use oracle::reading::check::{Answers, Finding, check};
use oracle::reading::enclosure::Enclosure;
use oracle::reading::notes::{Notes, with_roots};
use oracle::reading::roots::{Choice, POLICIES};
use oracle::record::Case;
use oracle::shims::num_dual::DualNum;

fn argon_and_methane(perturbation: u8) -> Case {
    Case {
        perturbation,
        substances: vec![[12.26, 6.0, 3.41, 118.0], [12.65, 6.0, 3.74, 153.5]],
        k_ij: vec![0.01],
        l_ij: None,
        temperature: 251.0,
        partial_density: vec![0.004, 0.006],
        molefracs: vec![0.4, 0.6],
    }
}

fn answers(case: &Case) -> Answers {
    Answers { energies: energies(case).expect("energies"), ends: ends(case).expect("ends") }
}

fn findings(case: &Case, answers: &Answers, roots: Choice) -> Vec<Finding> {
    check(case, answers, roots, 1).0
}

/// A reading of one function with the lower ends of roots.
fn work(f: impl FnOnce() -> Reading) -> (Reading, Notes) {
    with_roots(POLICIES[0].1, 1, f)
}

fn point(v: f64) -> Reading {
    Reading::point(v)
}

#[test]
fn nothing_is_found_on_a_record_with_ends() {
    for perturbation in [0, 1, 2] {
        let case = argon_and_methane(perturbation);
        for (name, roots) in POLICIES {
            let (findings, notes) = check(&case, &answers(&case), roots, 1);
            assert_eq!(findings, [], "{name}");
            assert!(notes.roots > 0 && notes.places > 500);
        }
    }
}

/// B3 at a reduced density of 0.4: the bracket that its u-fraction squares holds 0.
#[test]
fn nothing_is_found_where_a_bracket_holds_zero() {
    for density in [0.4, 0.4_f64.next_up(), 0.4_f64.next_down()] {
        let case = Case {
            substances: vec![[12.65, 6.0, 1.0, 153.5]],
            k_ij: vec![],
            l_ij: None,
            partial_density: vec![density],
            molefracs: vec![1.0],
            ..argon_and_methane(2)
        };
        for (name, roots) in POLICIES {
            assert_eq!(findings(&case, &answers(&case), roots), [], "{name}");
        }
    }
}

/// The ranges that a reading carries are those of the ends, whatever its roots are.
#[test]
fn the_ranges_beside_a_reading_are_the_ends() {
    for perturbation in [0, 1, 2] {
        let case = argon_and_methane(perturbation);
        for (_, roots) in POLICIES {
            let (readings, _) = with_roots(roots, 1, || contributions(&case));
            let ends = readings.map(|reading| [reading.range().lower, reading.range().upper]);
            assert_eq!(ends.as_flattened(), answers(&case).ends);
        }
    }
}

/// 0.1 + 0.2 in fractions is neither the double 0.3 nor that of the sum.
#[test]
fn fractions_are_not_rounded() {
    let (sum, _) = work(|| point(0.1) + point(0.2) - point(0.3));
    let unit = Big::from_double(2f64.powi(-55));
    assert_eq!([sum.exact().lower, sum.exact().upper], [unit; 2]);
    let (third, notes) = work(|| point(1.0) / point(3.0) * point(3.0));
    assert!(third.exact().lower < third.exact().upper);
    assert_eq!((notes.places, notes.outside), (2, 0));
}

#[test]
fn exact_values_of_the_recipes() {
    let equals = |f: fn(Reading) -> Reading, v: f64, expected: f64| {
        let (result, notes) = work(|| f(point(v)));
        let expected = Big::from_double(expected);
        assert_eq!([result.exact().lower, result.exact().upper], [expected; 2]);
        assert_eq!((notes.undecided, notes.without_result), (0, 0));
    };
    equals(Reading::ln, 1.0, 0.0);
    equals(Reading::ln_1p, 0.0, 0.0);
    equals(Reading::exp, 0.0, 1.0);
    equals(Reading::exp, (-700.0_f64).next_down(), 0.0);
    equals(Reading::tanh, 0.0, 0.0);
    equals(Reading::tanh, 20.0_f64.next_up(), 1.0);
    equals(|v| v.powf(point(1.2187)), 0.0, 0.0);
    equals(|v| v.powi(0), 3.0, 1.0);
    equals(|v| v.powi(2), -3.0, 9.0);
    equals(|v| v.powi(3), -3.0, -27.0);
    equals(|v| v.powi(4), -3.0, 81.0);
    // ln of a power of two is e × L, and 2 × L is a double.
    equals(Reading::ln, 4.0, 2.0 * std::f64::consts::LN_2);
}

/// A third times 3, less 1, is an enclosure around 0.
fn around_zero() -> Reading {
    point(1.0) / point(3.0) * point(3.0) - point(1.0)
}

/// The ends of its square are from 0 on; so is the enclosure, and lies between them.
#[test]
fn an_enclosure_around_zero_has_an_even_power_above_it() {
    assert!(around_zero().exact().lower < Big::ZERO);
    for k in [2, 4] {
        let (power, notes) = work(|| around_zero().powi(k));
        assert_eq!((power.range().lower, power.exact().lower), (0.0, Big::ZERO));
        assert!(power.exact().upper > Big::ZERO);
        assert_eq!(notes.outside, 0);
    }
    assert!(work(|| around_zero().powi(3)).0.exact().lower < Big::ZERO);
}

type Expected = (fn(Reading) -> Reading, f64, f64, &'static str, i64);

/// Function, argument, and the exact value: sign, 256 bits, exponent of the last of them. Made by
/// tests/expected/recipes.py in Python's fractions.
const EXPECTED: [Expected; 9] = [
    (
        Reading::ln,
        3.0,
        1.0,
        "8c9f53d56818531083d890e5d8f90e5eeb204c8e52194ad8dc2388a5fd2e5b80",
        -255,
    ),
    (
        Reading::ln,
        0.7,
        -1.0,
        "b69e192709fa7bfc9c82d87ec1f7d7e9914c560644de16c770e45ac54b82b29c",
        -257,
    ),
    (
        Reading::ln_1p,
        0.2,
        1.0,
        "bab2808f24b3b472da22d4417070dc8aec180d46b9fef46cd1f68f679893df87",
        -258,
    ),
    (
        Reading::ln_1p,
        3.0,
        1.0,
        "b17217f7d1cf7800000000000000000000000000000000000000000000000000",
        -255,
    ),
    (
        Reading::exp,
        0.3,
        1.0,
        "acc82c6460d4ac90ff1b9778e9b1bf61292d86085920c943f0b36f965a86604b",
        -255,
    ),
    (
        Reading::exp,
        -12.5,
        1.0,
        "fa1769fb473481087f9da83e5b55d781e3e82447b8be35a4acac251b4dbea9b9",
        -274,
    ),
    (
        Reading::tanh,
        0.7,
        1.0,
        "9ab7d8bd797485fd0988286b0650f1e83fb1ddea47f7aab6dd62b87ed5182068",
        -256,
    ),
    (
        |v| v.powf(point(-2.5)),
        1.7,
        1.0,
        "87e0a61771a498350b8aef7dff4d07ac87b4bff7f2517bcdea648b0cfaf75bdf",
        -257,
    ),
    (
        |v| v.powf(point(-2.5)),
        0.01,
        1.0,
        "c34fffffffffe6d72fa8a6d2a43d647394cded096ac9bdd743819bb00ddbfe87",
        -239,
    ),
];

#[test]
fn recipes_are_those_of_fractions() {
    for (f, v, sign, bits, exponent) in EXPECTED {
        let halves = (0..8).map(|at| u32::from_str_radix(&bits[8 * at..8 * at + 8], 16));
        let expected = halves.fold(Big::ZERO, |sum, half| {
            sum.scaled(32).add(Big::from_double(half.expect("digits") as f64), Down)
        });
        let exact = work(|| f(point(v))).0.exact() * Enclosure::double(sign);
        let apart = exact - Enclosure::point(expected.scaled(exponent));
        let unit = Big::from_double(1.0).scaled(exponent);
        // The expected bits are cut off, and both bounds are rounded at every operation.
        let small = [-unit.scaled(12), unit.scaled(12)];
        assert!(apart.lies_within(small), "at {v}");
    }
}

#[test]
fn recipes_lie_within_their_ranges() {
    type Function = fn(Reading) -> Reading;
    let functions: [(Function, [f64; 2]); 7] = [
        (Reading::ln, [0.01, 100.0]),
        (Reading::ln_1p, [-0.99, 10.0]),
        (Reading::exp, [-705.0, 700.0]),
        (Reading::tanh, [-22.0, 22.0]),
        (|v| v.powf(point(-2.5)), [0.01, 100.0]),
        (|v| v.powi(2), [-10.0, 10.0]),
        (|v| v.powi(4), [-10.0, 10.0]),
    ];
    let mut random = Random::new(7);
    for (f, interval) in functions {
        for _ in 0..2_000 {
            let v = random.between(interval);
            let (result, notes) = work(|| f(point(v)));
            assert_eq!((notes.outside, notes.undecided), (0, 0), "{v}");
            let width = Big::from_double(2f64.powi(-200));
            assert!((result.exact() - result.exact()).upper <= width.scaled(1010), "{v}");
        }
    }
}

#[test]
fn without_result_and_undecided() {
    let notes = |f: fn() -> Reading| work(f).1;
    let zero = || point(0.1) - point(0.1);
    assert_eq!(notes(|| point(1.0) / point(0.0)).without_result, 1);
    assert_eq!(notes(|| point(-1.0).ln()).without_result, 1);
    assert_eq!(notes(|| point(-1.0).ln_1p()).without_result, 1);
    assert_eq!(notes(|| point(701.0).exp()).without_result, 1);
    assert_eq!(notes(|| point(0.0).powf(point(0.0))).without_result, 1);
    assert_eq!(work(|| point(1.0) / zero()).1.without_result, 1);
    assert!(work(|| point(1.0) / around_zero()).1.undecided > 0);
    assert!(work(|| (point(1.5) + around_zero()).ln()).1.undecided > 0);
}

/// Two doubles next to each other with the reading between them.
fn around(case: &Case, k: usize) -> [f64; 2] {
    let exact = with_roots(POLICIES[0].1, 1, || contributions(case)).0[k].exact();
    let mut below = answers(case).ends[2 * k];
    while Big::from_double(below.next_up()) <= exact.lower {
        below = below.next_up();
    }
    [below, below.next_up()]
}

/// Ends that hold the reading by less than a double, then moved inwards by one.
#[test]
fn ends_moved_inwards_are_noticed() {
    for perturbation in [0, 1, 2] {
        let case = argon_and_methane(perturbation);
        for k in 0..3 {
            let [below, above] = around(&case, k);
            let mut moved = answers(&case);
            let mut found = |ends: [f64; 2]| {
                [moved.ends[2 * k], moved.ends[2 * k + 1]] = ends;
                findings(&case, &moved, POLICIES[0].1).contains(&Finding::Reading(k))
            };
            assert!(!found([below, above]));
            assert!(found([above, above]));
            assert!(found([below, below]));
        }
    }
}

#[test]
fn ends_at_the_energy_alone_are_noticed() {
    let case = argon_and_methane(1);
    let mut moved = answers(&case);
    moved.ends = std::array::from_fn(|at| moved.energies[at / 2]);
    for k in 0..3 {
        let found = findings(&case, &moved, POLICIES[0].1);
        assert!(found.contains(&Finding::Reading(k)) && found.contains(&Finding::Distance(k)));
    }
}

#[test]
fn an_energy_outside_the_ends_is_noticed() {
    let case = argon_and_methane(2);
    let mut moved = answers(&case);
    moved.energies[2] = moved.ends[5].next_up();
    assert_eq!(findings(&case, &moved, POLICIES[0].1), [Finding::Double(2)]);
}

/// A root one double beyond the end of its range.
#[test]
fn a_root_outside_its_ends_is_noticed() {
    let beyond: Choice = |range: Range, _| Big::from_double(range.upper.next_up());
    let case = argon_and_methane(1);
    let found = findings(&case, &answers(&case), beyond);
    assert!(matches!(found[0], Finding::Places(count) if count > 0));
}

#[test]
fn every_choice_lies_between_the_ends() {
    let ranges = [[1.0, 1.0_f64.next_up()], [-5e-324, 3.0], [0.0, 0.0], [1e-300, 1e300]];
    let mut random = Random::new(8);
    for [lower, upper] in ranges {
        for (_, choose) in POLICIES {
            let root = choose(Range { lower, upper }, &mut random);
            assert!(Big::from_double(lower) <= root && root <= Big::from_double(upper));
        }
    }
}
