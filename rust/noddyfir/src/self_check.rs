//! Whether the arithmetic of the calling thread is as the proof assumes it. Results are compared by their bits.

use crate::bytes::{ENDS_SIZE, ENERGIES_SIZE, SLOPES_SIZE};
use crate::{known, raw};
use std::fmt::{self, Display, Formatter};
use std::hint::black_box;
use std::sync::OnceLock;

/// What is wrong with the processor's arithmetic in the calling thread.
#[derive(Clone, Copy, Debug, PartialEq, Eq)]
pub enum Fault {
    /// An inexact or invalid operation would stop the program.
    Traps,
    /// Results are not rounded to the nearest double.
    Rounding,
    /// Numbers below the normal range are taken as zero.
    Subnormals,
    /// Results carry more digits than a double has.
    Precision,
    /// A known case has other bits than it should.
    KnownCase,
}

impl Fault {
    /// A plain sentence.
    pub fn sentence(self) -> &'static str {
        match self {
            Self::Traps => {
                "Floating-point traps are on: an inexact or invalid operation would stop the program."
            }
            Self::Rounding => {
                "Results are not rounded to the nearest double: the rounding mode was changed."
            }
            Self::Subnormals => {
                "Numbers below the normal range are taken as zero: flush-to-zero is on, as a library linked with \
                 fast-math sets it."
            }
            Self::Precision => "Results carry more digits than a double has.",
            Self::KnownCase => "A known case has other bits than it should.",
        }
    }
}

impl Display for Fault {
    fn fmt(&self, f: &mut Formatter) -> fmt::Result {
        f.write_str(self.sentence())
    }
}

impl std::error::Error for Fault {}

/// Looks at the mode of the processor's arithmetic, does a few operations whose results are known, and calls energies,
/// ends and slopes for a known case of each perturbation.
///
/// The proof assumes the default mode: rounding to nearest, subnormal numbers kept, no traps. A library that is linked
/// with fast-math changes it for the whole program. Every call of this crate looks at the mode, which takes some
/// nanoseconds, and the first one does the whole check; so there is no need to call this one, but a program may want to
/// know early.
///
/// ```
/// noddyfir::self_check()?;
/// # Ok::<(), noddyfir::Fault>(())
/// ```
pub fn self_check() -> Result<(), Fault> {
    mode_is_default(raw::control_word())?;
    held(rounds_to_nearest(), Fault::Rounding)?;
    held(keeps_subnormals(), Fault::Subnormals)?;
    held(has_no_excess_precision(), Fault::Precision)?;
    held((0..3).all(known_case_holds), Fault::KnownCase)
}

/// What each call asks for first: the mode, which belongs to a thread and can change, and once the whole check.
pub(crate) fn ready() -> Result<(), Fault> {
    static WHOLE: OnceLock<Result<(), Fault>> = OnceLock::new();
    mode_is_default(raw::control_word())?;
    *WHOLE.get_or_init(self_check)
}

fn held(holds: bool, fault: Fault) -> Result<(), Fault> {
    if holds { Ok(()) } else { Err(fault) }
}

// Of the control word MXCSR: the six masks of traps, the two bits of rounding, and the two kinds of flush-to-zero.
const MASKS: u32 = 0x1f80;
const ROUNDING: u32 = 0x6000;
const RESULTS_TO_ZERO: u32 = 0x8000;
const OPERANDS_TO_ZERO: u32 = 0x0040;

fn mode_is_default(word: u32) -> Result<(), Fault> {
    held(word & MASKS == MASKS, Fault::Traps)?;
    held(word & ROUNDING == 0, Fault::Rounding)?;
    held(word & (RESULTS_TO_ZERO | OPERANDS_TO_ZERO) == 0, Fault::Subnormals)
}

/// The operands are hidden from the compiler, so that the processor adds.
fn sum_is(a: u64, b: u64, sum: u64) -> bool {
    let [a, b] = [a, b].map(|bits| black_box(f64::from_bits(bits)));
    black_box(a + b).to_bits() == sum
}

fn product_is(a: u64, b: u64, product: u64) -> bool {
    let [a, b] = [a, b].map(|bits| black_box(f64::from_bits(bits)));
    black_box(a * b).to_bits() == product
}

const ONE: u64 = 0x3ff0_0000_0000_0000;
const MINUS_ONE: u64 = 0xbff0_0000_0000_0000;
const HALF: u64 = 0x3fe0_0000_0000_0000;
const LEAST_NORMAL: u64 = 0x0010_0000_0000_0000;

fn rounds_to_nearest() -> bool {
    // 1 + 2^-54 is 1, and 1 + 3 * 2^-54 is the next double.
    let above =
        sum_is(ONE, 0x3c90_0000_0000_0000, ONE) && sum_is(ONE, 0x3ca8_0000_0000_0000, ONE + 1);
    let below = sum_is(MINUS_ONE, 0xbc90_0000_0000_0000, MINUS_ONE)
        && sum_is(MINUS_ONE, 0xbca8_0000_0000_0000, MINUS_ONE + 1);
    // Halfway: to the even one.
    let halfway =
        sum_is(ONE, 0x3ca0_0000_0000_0000, ONE) && sum_is(ONE + 1, 0x3ca0_0000_0000_0000, ONE + 2);
    above && below && halfway
}

fn keeps_subnormals() -> bool {
    let result = product_is(LEAST_NORMAL, HALF, LEAST_NORMAL / 2);
    // 2^-1074 * 2^1022 is 2^-52.
    let operand = product_is(1, 0x7fd0_0000_0000_0000, 0x3cb0_0000_0000_0000);
    result && operand && sum_is(1, 2, 3)
}

/// 1 + (2^-53 + 2^-70): rounded once it is the next double; by way of more digits it would first be halfway, then 1.
fn has_no_excess_precision() -> bool {
    sum_is(ONE, 0x3ca0_0000_8000_0000, ONE + 1)
}

fn known_case_holds(perturbation: usize) -> bool {
    let mut record = known::RECORD;
    record[3] = perturbation as u8;
    let (mut energies, mut ends, mut slopes) =
        ([0; ENERGIES_SIZE], [0; ENDS_SIZE], [0; SLOPES_SIZE]);
    raw::energies(&record, &mut energies);
    raw::ends(&record, &mut ends);
    raw::slopes(&record, &mut slopes);
    energies == known::ENERGIES[perturbation]
        && ends == known::ENDS[perturbation]
        && slopes == known::SLOPES[perturbation]
}
