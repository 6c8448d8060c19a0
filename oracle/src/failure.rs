//! Whether an operation failed since the work began, and by which rule first: for doubles it is
//! code 9, for ranges code 10, for slopes code 11.

use std::cell::Cell;

/// What fails, in document 01's words; for doubles only those that do not speak of two cases.
#[derive(Clone, Copy, Debug, PartialEq, Eq, PartialOrd, Ord)]
pub enum Rule {
    NotFinite,
    Divisor,
    Root,
    Base,
    LogarithmArgument,
    ExpAbove,
    TwoE,
    TwoK,
    QuarterSides,
    UnderflowSides,
    TanhSides,
    OmegaSides,
    Slope,
}

impl Rule {
    pub const fn name(self) -> &'static str {
        match self {
            Self::NotFinite => "an end is not finite",
            Self::Divisor => "a divisor holds 0",
            Self::Root => "a root reaches below 0",
            Self::Base => "ln's or a power's base reaches 0 or below",
            Self::LogarithmArgument => "ln_1p reaches −1 or below",
            Self::ExpAbove => "exp reaches above 700",
            Self::TwoE => "ln meets two e",
            Self::TwoK => "exp meets two k",
            Self::QuarterSides => "ln_1p meets either side of ±0.25",
            Self::UnderflowSides => "exp meets either side of −700",
            Self::TanhSides => "tanh meets either side of ±20",
            Self::OmegaSides => "u_fraction_wca meets either side of 175",
            Self::Slope => "a slope is not finite",
        }
    }
}

thread_local! {
    static FIRST: Cell<Option<Rule>> = const { Cell::new(None) };
}

/// Records that a value on the path is not finite, or that a rule is missing or fails. The first
/// counts: what is worked from a failed value may fail by any rule. But a value that fails comes
/// before every slope.
#[cold]
pub fn fail(rule: Rule) {
    let before = FIRST.get().filter(|&first| first != Rule::Slope);
    FIRST.set(before.or(Some(rule)));
}

/// The result of the work, or the rule of its first operation that failed.
pub fn or_first_failure<T>(work: impl FnOnce() -> T) -> Result<T, Rule> {
    FIRST.set(None);
    let result = work();
    FIRST.get().map_or(Ok(result), Err)
}

/// The result of the work, if no operation of it failed.
pub fn unless_failed<T>(work: impl FnOnce() -> T) -> Option<T> {
    or_first_failure(work).ok()
}
