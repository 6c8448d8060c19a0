//! figures_sample drawn COUNT, or figures_sample grid: writes the records of docs/FIGURES.md, of which
//! COUNT are for each pair of potentials and each perturbation.

use oracle::figures::sample;
use std::io::Write;

fn main() -> std::io::Result<()> {
    let arguments: Vec<String> = std::env::args().skip(1).collect();
    let arguments: Vec<&str> = arguments.iter().map(String::as_str).collect();
    let records = match arguments[..] {
        ["drawn", count] => count.parse().ok().map(sample::drawn),
        ["grid"] => Some(sample::grid()),
        _ => None,
    };
    let Some(records) = records else {
        eprintln!("figures_sample drawn COUNT, or figures_sample grid");
        std::process::exit(2);
    };
    std::io::stdout().write_all(&records)
}
