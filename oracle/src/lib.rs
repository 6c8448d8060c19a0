//! The Rust that Noddyfir ports, compiled over doubles, over ranges, over values with slopes and over
//! exact readings, with document 01's records, answers and runs around it.

pub mod answer;
pub mod constants;
pub mod double;
pub mod dual;
pub mod failure;
pub mod figures;
pub mod generator;
pub mod moves;
pub mod program;
pub mod random;
pub mod range;
pub mod reading;
pub mod record;
pub mod run;
pub mod stored;

pub mod shims;

/// The ported text over doubles.
#[allow(dead_code, unused_imports, unfulfilled_lint_expectations, clippy::duplicate_mod)]
pub mod over_doubles {
    use crate::double::Double as Number;
    include!("contributions.rs");
}

/// The ported text over ranges.
#[allow(dead_code, unused_imports, unfulfilled_lint_expectations, clippy::duplicate_mod)]
pub mod over_ranges {
    use crate::range::Range as Number;
    include!("contributions.rs");
}

/// The ported text over values with slopes.
#[allow(dead_code, unused_imports, unfulfilled_lint_expectations, clippy::duplicate_mod)]
pub mod over_slopes {
    use crate::dual::Dual as Number;
    include!("contributions.rs");
}

/// The ported text over exact readings beside ranges.
#[allow(dead_code, unused_imports, unfulfilled_lint_expectations, clippy::duplicate_mod)]
pub mod over_readings {
    use crate::reading::Reading as Number;
    include!("contributions.rs");
}
