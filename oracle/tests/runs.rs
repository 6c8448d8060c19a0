//! Runs, and the three programs on standard input.

use oracle::record::split;
use oracle::run::{Run, run_ends, run_energies, run_slopes};
use oracle::{generator, random::Random, stored};
use std::io::Write;
use std::process::{Command, Stdio};

const SEVEN_BYTES: [u8; 7] = [0, 0, 0, 3, 1, 0, 0];

#[test]
fn the_seven_byte_run() {
    let mut answers = [0xAA; 64];
    let run = run_energies(&SEVEN_BYTES, &mut answers);
    assert_eq!(run, Run { records: 2, read: 7, written: 8, reason: 0 });
    assert_eq!(answers[..9], [0, 2, 1, 2, 0, 2, 1, 5, 0xAA]);
    assert_eq!(run_ends(&SEVEN_BYTES, &mut answers), run);
    assert_eq!(run_slopes(&SEVEN_BYTES, &mut answers), run);
}

#[test]
fn reasons_in_their_order() {
    let reason = |records: &[u8], room| run_energies(records, &mut vec![0; room]).reason;
    assert_eq!(reason(&[], 0), 0);
    assert_eq!(reason(&[0], 0), 2);
    assert_eq!(reason(&[0, 1], 0), 2);
    assert_eq!(reason(&[0, 0], 27), 1);
    assert_eq!(reason(&[0, 0], 28), 0);
    // A refusal takes four bytes, but needs the room of a whole answer.
    let expected = Run { records: 1, read: 2, written: 4, reason: 1 };
    assert_eq!(run_energies(&[0; 4], &mut [0; 31]), expected);
    for run in [run_ends, run_slopes] {
        assert_eq!(run(&[0; 4], &mut [0; 55]), expected);
        assert_eq!(run(&[0; 4], &mut [0; 56]).reason, 0);
    }
}

#[test]
fn a_run_resumed_for_space_gives_the_same_answers() {
    let records = stored::records();
    for run in [run_energies, run_ends, run_slopes] {
        let mut whole = vec![0; 65_536];
        let all = run(&records, &mut whole);
        let mut resumed = Vec::new();
        let (mut read, mut answers) = (0, [0; 61]);
        while read < records.len() {
            let part = run(&records[read..], &mut answers);
            resumed.extend_from_slice(&answers[..part.written]);
            read += part.read;
        }
        assert_eq!(resumed, whole[..all.written]);
    }
}

fn program_path(name: &str) -> &'static str {
    match name {
        "energies" => env!("CARGO_BIN_EXE_energies"),
        "ends" => env!("CARGO_BIN_EXE_ends"),
        _ => env!("CARGO_BIN_EXE_slopes"),
    }
}

fn program(path: &str, arguments: &[&str], input: &[u8]) -> Vec<u8> {
    let mut child = Command::new(path)
        .args(arguments)
        .stdin(Stdio::piped())
        .stdout(Stdio::piped())
        .spawn()
        .expect("the program starts");
    let mut stdin = child.stdin.take().expect("its input is piped");
    let input = input.to_vec();
    // The program may stop reading before its input ends.
    let writer = std::thread::spawn(move || _ = stdin.write_all(&input));
    let output = child.wait_with_output().expect("the program ends");
    writer.join().expect("the input is written");
    assert!(output.status.success());
    output.stdout
}

#[test]
fn programs() {
    let paths = ["energies", "ends", "slopes"].map(program_path);
    for path in paths {
        assert_eq!(program(path, &[], &SEVEN_BYTES), [0, 2, 1, 2, 0, 2, 1, 5]);
        let broken = [&SEVEN_BYTES[..], &[0, 9, 1]].concat();
        assert_eq!(program(path, &[], &broken), [0, 2, 1, 2, 0, 2, 1, 5]);
        assert_eq!(program(path, &[], &[0]), []);
        // 65,536 bytes are 32,768 of the empty records.
        assert_eq!(program(path, &[], &[0; 70_000]).len(), 4 * 32_768);
        assert_eq!(program(path, &["--all"], &[0; 70_000]).len(), 4 * 35_000);
    }
}

#[test]
fn the_program_of_readings() {
    let mut random = Random::new(5);
    let records: Vec<u8> =
        generator::KINDS.iter().flat_map(|(_, kind)| kind(&mut random)).collect();
    let path = env!("CARGO_BIN_EXE_readings");
    for (arguments, each) in [(&[][..], 4), (&["--policy", "middle"], 1)] {
        let printed = String::from_utf8(program(path, arguments, &records)).expect("text");
        let numbers = |word: &str| -> usize {
            let before = printed.split(word).next().expect("the line has the word");
            before.split(' ').next_back().and_then(|n| n.parse().ok()).expect("a number")
        };
        assert_eq!(numbers(" records,"), generator::KINDS.len());
        assert_eq!(numbers(" readings with"), each * numbers(" with ends"));
        assert_eq!(numbers(" violations"), 0);
    }
}

#[test]
fn the_stored_list_fits_a_run() {
    let records = stored::records();
    assert!(records.len() <= 65_536);
    let last_codes = [("energies", 9), ("ends", 10), ("slopes", 11)];
    for (name, last) in last_codes {
        let answers = program(program_path(name), &[], &records);
        let codes: Vec<u8> = split(&answers).map(|answer| answer[3]).collect();
        assert!((2..=9).chain([0, 12, last]).all(|code| codes.contains(&code)), "{name}");
    }
}

#[test]
fn generated_records_are_whole() {
    for (name, kind) in generator::KINDS {
        let mut random = Random::new(3);
        let records: Vec<u8> = (0..200).flat_map(|_| kind(&mut random)).collect();
        let run = run_energies(&records, &mut vec![0; 200 * 28]);
        assert_eq!((run.records, run.reason), (200, 0), "{name}");
    }
}
