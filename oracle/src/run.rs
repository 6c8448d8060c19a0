//! A run: whole records read one after the other, their answers written one after the other.

use crate::answer::{ENDS_ROOM, ENERGIES_ROOM, SLOPES_ROOM};
use crate::answer::{answer_ends, answer_energies, answer_slopes};
use crate::record::length;

/// Why a run stopped, in the order in which the reasons are tested.
pub mod reason {
    pub const INPUT_USED_UP: u8 = 0;
    pub const BROKEN_TAIL: u8 = 2;
    pub const NO_ROOM: u8 = 1;
}

/// What a run did: records done, bytes read, bytes written, reason.
#[derive(Clone, Copy, Debug, PartialEq)]
pub struct Run {
    pub records: usize,
    pub read: usize,
    pub written: usize,
    pub reason: u8,
}

pub fn run_energies(records: &[u8], answers: &mut [u8]) -> Run {
    run(records, answers, ENERGIES_ROOM, answer_energies)
}

pub fn run_ends(records: &[u8], answers: &mut [u8]) -> Run {
    run(records, answers, ENDS_ROOM, answer_ends)
}

pub fn run_slopes(records: &[u8], answers: &mut [u8]) -> Run {
    run(records, answers, SLOPES_ROOM, answer_slopes)
}

fn run(records: &[u8], answers: &mut [u8], room: usize, call: fn(&[u8], &mut [u8]) -> u8) -> Run {
    let mut run = Run { records: 0, read: 0, written: 0, reason: reason::INPUT_USED_UP };
    loop {
        let rest = &records[run.read..];
        let free = &mut answers[run.written..];
        if let Some(reason) = stop(rest, free.len(), room) {
            return Run { reason, ..run };
        }
        let size = length(rest) + 2;
        let code = call(&rest[..size], free);
        run.records += 1;
        run.read += size;
        run.written += if code == 0 { room } else { 4 };
    }
}

/// The reason to stop before the next record, if there is one.
fn stop(rest: &[u8], free: usize, room: usize) -> Option<u8> {
    if rest.is_empty() {
        Some(reason::INPUT_USED_UP)
    } else if rest.len() < 2 || rest.len() - 2 < length(rest) {
        Some(reason::BROKEN_TAIL)
    } else if free < room {
        Some(reason::NO_ROOM)
    } else {
        None
    }
}
