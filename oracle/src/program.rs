//! What the three programs share: standard input through runs to standard output.

use crate::run::{Run, reason};
use std::io::{Read, Result, Write, stdin, stdout};

/// The bytes of standard input that a program reads, unless it is called with `--all`.
const INPUT: u64 = 65_536;

/// Answers the records on standard input, calling the run again where it stopped for space.
pub fn answer_input(run: fn(&[u8], &mut [u8]) -> Run) -> Result<()> {
    let records = input()?;
    let mut answers = [0; 4096];
    let mut read = 0;
    loop {
        let done = run(&records[read..], &mut answers);
        stdout().write_all(&answers[..done.written])?;
        read += done.read;
        if done.reason != reason::NO_ROOM {
            return Ok(());
        }
    }
}

fn input() -> Result<Vec<u8>> {
    let all = std::env::args().any(|argument| argument == "--all");
    let mut records = Vec::new();
    stdin().take(if all { u64::MAX } else { INPUT }).read_to_end(&mut records)?;
    Ok(records)
}
