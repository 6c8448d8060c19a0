//! Why the command ends with another status than 0.

use noddyfir::Fault;
use std::fmt::Display;
use std::io;

/// The proved library refused the case.
const REFUSED: u8 = 1;
/// The arguments, the file or the place of the output are at fault.
const BAD_INPUT: u8 = 2;
/// The processor's arithmetic is not in the mode that the proof assumes.
const UNFIT: u8 = 3;
/// An answer contradicts what is proved.
const CONTRADICTION: u8 = 4;

pub struct Failure {
    pub status: u8,
    pub message: String,
}

impl Failure {
    pub fn refused(message: impl Display) -> Self {
        Self { status: REFUSED, message: format!("figures: {message}") }
    }

    pub fn bad_input(message: impl Display) -> Self {
        Self { status: BAD_INPUT, message: format!("figures: {message}") }
    }

    pub fn unfit(fault: Fault) -> Self {
        let message = format!("figures: nothing was worked. {fault}");
        Self { status: UNFIT, message }
    }

    pub fn contradiction(message: impl Display) -> Self {
        let message = format!(
            "figures: this contradicts what is proved; please report it with the input file. {message}"
        );
        Self { status: CONTRADICTION, message }
    }
}

/// What a failed write means: a reader that has seen enough, as `head`, is no failure.
pub fn of_output(error: io::Error) -> Result<(), Failure> {
    if error.kind() == io::ErrorKind::BrokenPipe {
        return Ok(());
    }
    Err(Failure::bad_input(format!("standard output cannot be written: {error}")))
}
