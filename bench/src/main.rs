//! Energies, ends and slopes per second through the proved static library and through the Rust that it
//! ports, on the same records in one run. It prints tables and judges no speed: that depends on the machine.

mod noddyfir;
mod row;
mod spread;
mod table;

use row::Row;
use std::process::ExitCode;

/// Odd, so that the median is one of them.
const ROUNDS: usize = 11;

fn main() -> ExitCode {
    let mut rows = row::all();
    let differing: usize = rows.iter().map(Row::differing).sum();
    let records: usize = rows.iter().map(|row| row.records.len()).sum();
    if differing > 0 {
        eprintln!(
            "bench: {differing} of {records} records have different answers; nothing is measured"
        );
        return ExitCode::FAILURE;
    }
    println!("The same energies, ends and slopes from both on {records} records. {ROUNDS} rounds.");
    // A round measures every row, so that another program's burst of work does not fall on one row alone.
    for round in 0..ROUNDS {
        rows.iter_mut().for_each(|row| row.measure(round));
    }
    table::print(&rows);
    ExitCode::SUCCESS
}
