//! The calls on bytes, for senders who have records already. The formats are those of `include/noddyfir.h`.
//!
//! ```
//! use noddyfir::bytes::{self, Reason};
//!
//! // Two records too short to be any: each gets the four bytes of a refusal, with the codes 2 and 5.
//! let records = [0x00, 0x00, 0x00, 0x03, 0x01, 0x00, 0x00];
//! let mut answers = [0; 100];
//! let run = bytes::run_energies(&records, &mut answers)?;
//! assert_eq!((run.records, run.read, run.written, run.reason), (2, 7, 8, Reason::UsedUp));
//! assert_eq!(answers[..8], [0x00, 0x02, 0x01, 0x02, 0x00, 0x02, 0x01, 0x05]);
//! # Ok::<(), noddyfir::Fault>(())
//! ```

use crate::raw;
use crate::self_check::{Fault, ready};

/// The bytes of an answer with three energies.
pub const ENERGIES_SIZE: usize = 28;
/// The bytes of an answer with three pairs of ends.
pub const ENDS_SIZE: usize = 52;
/// The bytes of an answer with three pairs of an energy and its slope.
pub const SLOPES_SIZE: usize = 52;
/// The bytes of a refusal.
pub const REFUSAL_SIZE: usize = 4;
/// The bytes of the longest record: eight substances in version 2.
pub const RECORD_SIZE_MAX: usize = 845;

/// Why a run stopped.
#[derive(Clone, Copy, Debug, PartialEq, Eq)]
pub enum Reason {
    /// All records are answered.
    UsedUp,
    /// Under [`ENERGIES_SIZE`], [`ENDS_SIZE`] or [`SLOPES_SIZE`] bytes are left for answers. Call again with the records
    /// from `read` on.
    NoRoom,
    /// Under 2 bytes are left of the records, or a length reaches past their end.
    Broken,
}

/// What a run did.
#[derive(Clone, Copy, Debug, PartialEq, Eq)]
pub struct Run {
    /// Records answered.
    pub records: usize,
    /// Bytes of the records read.
    pub read: usize,
    /// Bytes of the answers written.
    pub written: usize,
    /// Why it stopped.
    pub reason: Reason,
}

/// Writes the answer of energies to one record at the start of `answer`, and returns its code. Under [`ENERGIES_SIZE`]
/// bytes of answer the code is 1 and nothing is written.
pub fn energies(record: &[u8], answer: &mut [u8]) -> Result<u8, Fault> {
    ready()?;
    Ok(raw::energies(record, answer))
}

/// Writes the answer of ends to one record at the start of `answer`, and returns its code. Under [`ENDS_SIZE`] bytes of
/// answer the code is 1 and nothing is written.
pub fn ends(record: &[u8], answer: &mut [u8]) -> Result<u8, Fault> {
    ready()?;
    Ok(raw::ends(record, answer))
}

/// Writes the answer of slopes to one record at the start of `answer`, and returns its code. Under [`SLOPES_SIZE`] bytes
/// of answer the code is 1 and nothing is written.
pub fn slopes(record: &[u8], answer: &mut [u8]) -> Result<u8, Fault> {
    ready()?;
    Ok(raw::slopes(record, answer))
}

/// Answers records that stand one after the other by their energies. Each answer is written where the one before it
/// ended; a refused record takes [`REFUSAL_SIZE`] bytes and the run goes on.
pub fn run_energies(records: &[u8], answers: &mut [u8]) -> Result<Run, Fault> {
    ready()?;
    Ok(raw::run_energies(records, answers).into())
}

/// Answers records that stand one after the other by their ends, as [`run_energies`].
pub fn run_ends(records: &[u8], answers: &mut [u8]) -> Result<Run, Fault> {
    ready()?;
    Ok(raw::run_ends(records, answers).into())
}

/// Answers records that stand one after the other by their slopes, as [`run_energies`].
pub fn run_slopes(records: &[u8], answers: &mut [u8]) -> Result<Run, Fault> {
    ready()?;
    Ok(raw::run_slopes(records, answers).into())
}

/// Writes a record of version 1 in version 2, with every l_ij +0, at the start of `out`, and returns its code. Where `out`
/// is shorter than the moved record the code is 1; with [`RECORD_SIZE_MAX`] bytes it is not. A refused move writes nothing.
pub fn to_version_2(record: &[u8], out: &mut [u8]) -> Result<u8, Fault> {
    ready()?;
    Ok(raw::to_version_2(record, out))
}

/// The way back, as [`to_version_2`]. The code is 13 where an l_ij is not +0.
pub fn to_version_1(record: &[u8], out: &mut [u8]) -> Result<u8, Fault> {
    ready()?;
    Ok(raw::to_version_1(record, out))
}

impl From<raw::Run> for Run {
    fn from(run: raw::Run) -> Self {
        let reason = match run.reason {
            0 => Reason::UsedUp,
            1 => Reason::NoRoom,
            _ => Reason::Broken,
        };
        Self { records: run.records, read: run.read, written: run.written, reason }
    }
}
