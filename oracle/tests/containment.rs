//! Energies and ends of generated cases against each other.

use oracle::answer::{ends, energies};
use oracle::generator;
use oracle::over_doubles::contributions;
use oracle::random::Random;
use oracle::record::{code, read};

/// The cases of this kind among its first records that pass the checks.
fn cases(kind: &str, count: usize) -> Vec<oracle::record::Case> {
    let make = generator::kind(kind).expect("a known kind");
    let mut random = Random::new(4);
    (0..count).filter_map(|_| read(&make(&mut random)).ok()).collect()
}

#[test]
fn ends_hold_the_energies() {
    for (kind, _) in generator::KINDS {
        let mut with_ends = 0;
        for case in cases(kind, 150) {
            let Ok(ends) = ends(&case) else { continue };
            let energies = energies(&case).expect("9 comes before 10");
            for (energy, ends) in energies.iter().zip(ends.chunks(2)) {
                assert!(ends[0] <= *energy && *energy <= ends[1], "{case:?}");
            }
            with_ends += 1;
        }
        assert!(with_ends > 0, "{kind}");
    }
}

/// Every value that is worked reaches an energy: code 9 is due exactly when an energy is NaN.
#[test]
fn a_failure_reaches_an_energy() {
    let mut refused = 0;
    for kind in ["wide", "limits", "thresholds", "zero-density"] {
        for case in cases(kind, 600) {
            let nan = contributions(&case).iter().any(|energy| energy.value().is_nan());
            assert_eq!(nan, energies(&case) == Err(code::ARITHMETIC), "{case:?}");
            refused += nan as usize;
        }
    }
    assert!(refused > 100);
}
