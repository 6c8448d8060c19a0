//! The stored records of the programs `energies`, `ends` and `slopes`, with answers that the Rust which is ported gave.

use noddyfir::bytes::{self, Reason, Run};
use noddyfir::{Fault, Refusal};

const RECORDS: &[u8] = include_bytes!("../../../crates/energies/stdin");
const ENERGIES: &[u8] = include_bytes!("../../../crates/energies/stdout");
const RECORDS_FOR_ENDS: &[u8] = include_bytes!("../../../crates/ends/stdin");
const ENDS: &[u8] = include_bytes!("../../../crates/ends/stdout");
const RECORDS_FOR_SLOPES: &[u8] = include_bytes!("../../../crates/slopes/stdin");
const SLOPES: &[u8] = include_bytes!("../../../crates/slopes/stdout");

type Call = fn(&[u8], &mut [u8]) -> Result<Run, Fault>;

/// All answers, by runs into a buffer of `room` bytes.
fn answers(call: Call, mut records: &[u8], room: usize) -> Vec<u8> {
    let (mut all, mut buffer) = (Vec::new(), vec![0; room]);
    loop {
        let run = call(records, &mut buffer).unwrap();
        all.extend(&buffer[..run.written]);
        records = &records[run.read..];
        if run.reason != Reason::NoRoom {
            return all;
        }
    }
}

#[test]
fn runs_give_the_stored_answers() {
    for room in [52, 100, 1 << 20] {
        assert!(answers(bytes::run_energies, RECORDS, room) == ENERGIES);
        assert!(answers(bytes::run_ends, RECORDS_FOR_ENDS, room) == ENDS);
        assert!(answers(bytes::run_slopes, RECORDS_FOR_SLOPES, room) == SLOPES);
    }
}

#[test]
fn single_calls_give_the_same_answers() {
    let (mut records, mut expected) = (RECORDS, ENERGIES);
    while !records.is_empty() {
        let size = 2 + usize::from(u16::from_be_bytes([records[0], records[1]]));
        let mut answer = [0; bytes::ENERGIES_SIZE];
        let code = bytes::energies(&records[..size], &mut answer).unwrap();
        let written = if code == 0 { bytes::ENERGIES_SIZE } else { bytes::REFUSAL_SIZE };
        assert_eq!(answer[..written], expected[..written]);
        assert_eq!(answer[3], code);
        (records, expected) = (&records[size..], &expected[written..]);
    }
    assert!(expected.is_empty());
}

/// Code 0 is followed by the energies, each before its slope. Other codes are those of energies; only where there are
/// energies there may be 11 too.
#[test]
fn slopes_have_the_stored_energies() {
    let answers = answers(bytes::run_slopes, RECORDS, 100);
    let (mut slopes, mut energies) = (&answers[..], ENERGIES);
    while !energies.is_empty() {
        let accepted = energies[3] == 0;
        let [size, written] = match slopes[3] {
            0 => [bytes::SLOPES_SIZE, bytes::ENERGIES_SIZE],
            11 => [bytes::REFUSAL_SIZE, bytes::ENERGIES_SIZE],
            _ => [bytes::REFUSAL_SIZE; 2],
        };
        assert!(if accepted { matches!(slopes[3], 0 | 11) } else { slopes[3] == energies[3] });
        let pairs = slopes[bytes::REFUSAL_SIZE..size].chunks(16);
        let values = energies[bytes::REFUSAL_SIZE..written].chunks(8);
        assert!(pairs.zip(values).all(|(pair, value)| &pair[..8] == value));
        (slopes, energies) = (&slopes[size..], &energies[written..]);
    }
    assert!(slopes.is_empty());
}

#[test]
fn a_short_buffer_and_a_broken_tail() {
    assert_eq!(bytes::energies(RECORDS, &mut [7; 27]), Ok(1));
    assert_eq!(bytes::ends(RECORDS, &mut [7; 51]), Ok(1));
    assert_eq!(bytes::slopes(RECORDS, &mut [7; 51]), Ok(1));
    let run = bytes::run_ends(&[0, 9, 1], &mut [0; 52]).unwrap();
    assert_eq!(run, Run { records: 0, read: 0, written: 0, reason: Reason::Broken });
    assert_eq!(Refusal::from_code(1).and_then(Refusal::code), Some(1));
}
