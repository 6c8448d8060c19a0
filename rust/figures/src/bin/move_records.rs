//! move_records 1|2: writes the case records of standard input in version 1 or in version 2 to standard output.
//!
//! A record that has the version already is passed on as it is, and nothing of it is looked at: so a stream of both
//! versions comes out in one. The first record that cannot be moved ends the work; what stood before it is written.
//! Status: 0 all are written; 1 a record is refused, with its number; 2 bad arguments, or the input is broken off or the
//! output cannot be written; 3 the processor's arithmetic is not in its default mode.

mod stream;

use noddyfir::{Refusal, to_version_1, to_version_2};
use std::fmt::Display;
use std::io::{self, BufReader, BufWriter, Read, Write};
use std::process::ExitCode;

/// The number of the version, and the move to it.
type Target = (u8, fn(&[u8]) -> Result<Vec<u8>, Refusal>);

/// The status and the message.
type Failure = (u8, String);

fn main() -> ExitCode {
    let arguments: Vec<String> = std::env::args().skip(1).collect();
    let target: Target = match arguments.iter().map(String::as_str).collect::<Vec<_>>()[..] {
        ["1"] => (1, to_version_1),
        ["2"] => (2, to_version_2),
        _ => {
            eprintln!("move_records 1|2 < records > moved");
            return ExitCode::from(2);
        }
    };
    match move_all(&mut io::stdin().lock(), &mut io::stdout().lock(), target) {
        Ok(()) => ExitCode::SUCCESS,
        Err((status, message)) => {
            eprintln!("move_records: {message}");
            ExitCode::from(status)
        }
    }
}

fn move_all(input: &mut impl Read, output: &mut impl Write, target: Target) -> Result<(), Failure> {
    let (mut input, mut output) = (BufReader::new(input), BufWriter::new(output));
    let moved = each_moved(&mut input, &mut output, target);
    output.flush().map_err(unwritten)?;
    moved
}

fn each_moved(
    input: &mut impl Read,
    output: &mut impl Write,
    (version, call): Target,
) -> Result<(), Failure> {
    let (mut place, mut number) = (0, 0);
    while let Some(record) = stream::next(input, place).map_err(|error| (2, error.to_string()))? {
        number += 1;
        place += record.len() as u64;
        let moved = if record.get(2) == Some(&version) { Ok(record) } else { call(&record) };
        let moved = moved.map_err(|refusal| refused(number, refusal))?;
        output.write_all(&moved).map_err(unwritten)?;
    }
    Ok(())
}

fn unwritten(error: impl Display) -> Failure {
    (2, format!("standard output cannot be written: {error}"))
}

/// Records are counted from 1.
fn refused(number: u64, refusal: Refusal) -> Failure {
    match refusal.code() {
        Some(code) => (1, format!("record {number}: Refused (code {code}). {refusal}")),
        None => (3, refusal.to_string()),
    }
}
