//! figures_table RECORDS ENERGIES ENDS: prints the tables of docs/FIGURES.md. The arguments are files
//! or pipes: the records, and the answers to them of the programs energies and ends.

use oracle::figures::table::Table;
use std::process::ExitCode;

fn main() -> ExitCode {
    let paths: Vec<String> = std::env::args().skip(1).collect();
    let [records, energies, ends] = &paths[..] else {
        eprintln!("figures_table RECORDS ENERGIES ENDS");
        return ExitCode::from(2);
    };
    match table(records, energies, ends) {
        Ok(table) => print!("{table}"),
        Err(what) => {
            eprintln!("figures_table: {what}");
            return ExitCode::FAILURE;
        }
    }
    ExitCode::SUCCESS
}

fn table(records: &str, energies: &str, ends: &str) -> Result<Table, String> {
    let read = |path: &str| std::fs::read(path).map_err(|error| format!("{path}: {error}"));
    Table::of(&read(records)?, &read(energies)?, &read(ends)?)
}
