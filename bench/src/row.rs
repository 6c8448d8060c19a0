//! A row of the tables: the records of one perturbation and one n, and their measurements.

use crate::noddyfir;
use oracle::answer::{ENDS_ROOM, answer_ends, answer_energies, answer_slopes};
use oracle::generator::kind;
use oracle::random::Random;
use std::hint::black_box;
use std::time::{Duration, Instant};

const COMPONENTS: [u8; 4] = [1, 2, 4, 8];
const RECORDS: usize = 256;
const MEASUREMENT: Duration = Duration::from_millis(300);
/// Of the longest answers: those of slopes have the length of those of ends.
const ROOM: usize = ENDS_ROOM;

/// All are called through such a pointer, so that none is inlined into the loop.
type Call = fn(&[u8], &mut [u8]) -> u8;

/// For each kind of answer, the two sides.
const CALLS: [[Call; 2]; 3] = [
    [answer_energies, noddyfir::answer_energies],
    [answer_ends, noddyfir::answer_ends],
    [answer_slopes, noddyfir::answer_slopes],
];
pub const ENERGIES: usize = 0;
pub const ENDS: usize = 1;
pub const SLOPES: usize = 2;
pub const RUST: usize = 0;
pub const NODDYFIR: usize = 1;

pub struct Row {
    pub perturbation: u8,
    pub n: u8,
    pub records: Vec<Vec<u8>>,
    /// Answers per second, one of each round, in the places of `CALLS`.
    pub rates: [[Vec<f64>; 2]; 3],
}

/// The rows, with the same records on every machine.
pub fn all() -> Vec<Row> {
    let mut random = Random::new(1);
    let mut rows = Vec::new();
    for perturbation in 0..3 {
        for n in COMPONENTS {
            let records = records(&mut random, perturbation, n);
            rows.push(Row { perturbation, n, records, rates: Default::default() });
        }
    }
    rows
}

/// Realistic records that have every kind of answer; the generator draws perturbation and n, so others
/// are passed over.
fn records(random: &mut Random, perturbation: u8, n: u8) -> Vec<Vec<u8>> {
    let realistic = kind("realistic").expect("the oracle has this kind");
    let wanted = |record: &Vec<u8>| {
        let answered = |calls: &[Call; 2]| answer(calls[RUST], record).0 == 0;
        record[3] == perturbation && record[4] == n && CALLS.iter().all(answered)
    };
    std::iter::repeat_with(|| realistic(random)).filter(wanted).take(RECORDS).collect()
}

fn answer(call: Call, record: &[u8]) -> (u8, [u8; ROOM]) {
    let mut bytes = [0; ROOM];
    (call(record, &mut bytes), bytes)
}

/// Passes over all the records until the time is used up. The answer buffer is not cleared between calls.
fn per_second(call: Call, records: &[Vec<u8>]) -> f64 {
    let mut buffer = [0; ROOM];
    let mut calls = 0;
    let start = Instant::now();
    loop {
        for record in records {
            call(black_box(record), black_box(&mut buffer));
        }
        calls += records.len();
        let elapsed = start.elapsed();
        if elapsed >= MEASUREMENT {
            return calls as f64 / elapsed.as_secs_f64();
        }
    }
}

impl Row {
    /// How many records have different codes or answers from the two sides.
    pub fn differing(&self) -> usize {
        let differs = |record: &&Vec<u8>| {
            CALLS.iter().any(|[rust, noddyfir]| answer(*rust, record) != answer(*noddyfir, record))
        };
        self.records.iter().filter(differs).count()
    }

    /// One measurement of each call; the rounds take turns in which side is first.
    pub fn measure(&mut self, round: usize) {
        for (calls, rates) in CALLS.iter().zip(&mut self.rates) {
            for side in [round % 2, (round + 1) % 2] {
                rates[side].push(per_second(black_box(calls[side]), &self.records));
            }
        }
    }
}
