//! readings [--policy lower|upper|middle|random] < records: works exact readings of the records that
//! have ends and checks that they and the energies lie between the ends. Without a policy, all four.
//! Ends with status 1 on a violation.

use oracle::answer::{ends, energies};
use oracle::reading::check::{Answers, ENERGIES, Finding, check};
use oracle::reading::roots::{Choice, POLICIES, policy};
use oracle::record::{self, Case, split};
use std::io::{Read, Result, stdin};
use std::process::ExitCode;
use std::time::Instant;

type Policy = (&'static str, Choice);

#[derive(Default)]
struct Counts {
    records: usize,
    with_ends: usize,
    readings: usize,
    places: u64,
    roots: u64,
    undecided: usize,
    violations: usize,
}

fn main() -> Result<ExitCode> {
    let Some(policies) = policies(&std::env::args().skip(1).collect::<Vec<_>>()) else {
        eprintln!("readings [--policy lower|upper|middle|random] < records");
        return Ok(ExitCode::from(2));
    };
    let started = Instant::now();
    let mut input = Vec::new();
    stdin().read_to_end(&mut input)?;
    let mut counts = Counts::default();
    for record in split(&input) {
        counts.records += 1;
        if let Some((case, answers)) = with_ends(record) {
            counts.with_ends += 1;
            policies.iter().for_each(|policy| counts.add(record, &case, &answers, policy));
        }
    }
    println!("{counts}; {:.1} seconds", started.elapsed().as_secs_f64());
    Ok(if counts.violations > 0 { ExitCode::FAILURE } else { ExitCode::SUCCESS })
}

fn policies(arguments: &[String]) -> Option<Vec<Policy>> {
    match arguments {
        [] => Some(POLICIES.to_vec()),
        [flag, name] if flag == "--policy" => policy(name).map(|policy| vec![policy]),
        _ => None,
    }
}

/// The case of a record that has ends, and its answers.
fn with_ends(record: &[u8]) -> Option<(Case, Answers)> {
    let case = record::read(record).ok()?;
    let answers = Answers { energies: energies(&case).ok()?, ends: ends(&case).ok()? };
    Some((case, answers))
}

/// Of the record's bytes alone, so that a violation can be repeated with that record alone.
fn seed(record: &[u8]) -> u64 {
    record.iter().fold(1, |seed, &byte| seed.wrapping_mul(0x100_0000_01b3) ^ byte as u64)
}

impl Counts {
    fn add(&mut self, record: &[u8], case: &Case, answers: &Answers, &(name, roots): &Policy) {
        let (findings, notes) = check(case, answers, roots, seed(record));
        self.readings += 1;
        self.places += notes.places;
        self.roots += notes.roots;
        self.undecided += findings.contains(&Finding::Undecided) as usize;
        let violations = findings.iter().filter(|finding| **finding != Finding::Undecided);
        let shown: Vec<String> = violations.map(described).collect();
        if !shown.is_empty() {
            self.violations += 1;
            println!("violation, roots {name}: {}; record {}", shown.join(", "), hex(record));
        }
    }
}

fn described(finding: &Finding) -> String {
    match *finding {
        Finding::Undecided => "undecided".to_string(),
        Finding::NoResult => "the reading has no result".to_string(),
        Finding::Places(count) => format!("{count} values outside the ranges of their places"),
        Finding::Reading(k) => format!("the reading of the {} energy is outside", ENERGIES[k]),
        Finding::Double(k) => format!("the {} energy is outside", ENERGIES[k]),
        Finding::Distance(k) => format!("the {} energy is too far from its reading", ENERGIES[k]),
    }
}

fn hex(bytes: &[u8]) -> String {
    bytes.iter().map(|byte| format!("{byte:02x}")).collect()
}

impl std::fmt::Display for Counts {
    fn fmt(&self, f: &mut std::fmt::Formatter) -> std::fmt::Result {
        write!(f, "readings: {} records, {} with ends; ", self.records, self.with_ends)?;
        write!(f, "{} readings with {} roots, ", self.readings, self.roots)?;
        write!(f, "{} values compared with their ranges; ", self.places)?;
        write!(f, "{} undecided, {} violations", self.undecided, self.violations)
    }
}
