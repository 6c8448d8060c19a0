//! The tables of docs/FIGURES.md: what they count, and answers that do not belong to the records.

use oracle::figures::{MOST, certified, sample, table::Table};
use oracle::record::{read, split};
use oracle::run::{run_ends, run_energies};

/// Five records for each pair of potentials and each perturbation, and the answers to them.
fn answered() -> [Vec<u8>; 3] {
    let records = sample::drawn(5);
    let (mut energies, mut ends) = (vec![0; 30 * 28], vec![0; 30 * 52]);
    let [doubles, pairs] = [run_energies(&records, &mut energies), run_ends(&records, &mut ends)];
    energies.truncate(doubles.written);
    ends.truncate(pairs.written);
    [records, energies, ends]
}

fn refused(records: &[u8], energies: &[u8], ends: &[u8]) -> String {
    Table::of(records, energies, ends).err().expect("a fault is found")
}

#[test]
fn certified_figures() {
    assert_eq!(certified(1.0, 1.0 + 1.1e-12), 11);
    assert_eq!(certified(1.0, 1.0 + 0.9e-12), 12);
    assert_eq!(certified(-2.5, -2.0), 0);
    assert_eq!(certified(-2.0, -1.9), 1);
    assert_eq!(certified(-1.0, 1.0), 0);
    assert_eq!(certified(0.0, 1e-300), 0);
    assert_eq!(certified(0.0, 0.0), MOST);
    assert_eq!(certified(2.0, 2.0_f64.next_up()), 15);
}

#[test]
fn samples_pass_the_checks() {
    for (records, count) in [(sample::drawn(5), 30), (sample::grid(), 6 * 8118)] {
        assert_eq!(split(&records).filter(|record| read(record).is_ok()).count(), count);
        assert!(split(&records).all(|record| record.len() == 117));
    }
}

#[test]
fn a_table() {
    let [records, energies, ends] = answered();
    let table = Table::of(&records, &energies, &ends).expect("the answers belong").to_string();
    for line in [
        "| BH | 12-6, 12-6 | 5 | 100.00 % | 13 (13, 13); 13 |",
        "| WCA | 12-6, 12-6 | 5 | 0.00 % | – | – | – |",
        "| WCA-B3 | 12-6, 12-6 | exp meets two k | 5 |",
    ] {
        assert!(table.contains(line), "{line}\n{table}");
    }
}

#[test]
fn faults_of_answers() {
    let [records, energies, ends] = answered();
    assert!(refused(&records, &energies, &ends[..52 * 3]).contains("no answer to record 3"));
    assert!(refused(&records, &ends, &ends).contains("another form"));
    assert!(refused(&records, &[0, 2, 1, 9], &ends).contains("no energies: 9"));
    let without = [&[0, 2, 1, 10][..], &ends[52..]].concat();
    assert!(refused(&records, &energies, &without).contains("the oracle has ends"));
    // The attractive energy of the first record with another sign.
    let mut other = energies.clone();
    other[4 + 16] ^= 0x80;
    assert!(refused(&records, &other, &ends).contains("energy 2 is not between its ends"));
}
