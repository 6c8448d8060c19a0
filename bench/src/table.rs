//! The tables: energies, ends and slopes per second, and what ends and slopes cost over energies.

use crate::row::{ENDS, ENERGIES, NODDYFIR, RUST, Row, SLOPES};
use crate::spread::Spread;

const PERTURBATIONS: [&str; 3] = ["BH", "WCA", "WCA-B3"];

/// Rates are medians, and `ratio` is that of the two medians. On a machine that other work shares the
/// fastest rounds tell more, so their ratio is there too.
const RATES: &str = "\
| perturbation | n | Rust per second | Noddyfir per second | ratio | ratio of the fastest rounds | noise of Rust | noise of Noddyfir |
|---|---|---|---|---|---|---|---|";

/// How many energies are answered in the time of one answer of ends or of slopes.
const COST: &str = "\
| perturbation | n | Rust | Noddyfir | Rust, fastest rounds | Noddyfir, fastest rounds |
|---|---|---|---|---|---|";

pub fn print(rows: &[Row]) {
    for (title, kind) in [("Energies", ENERGIES), ("Ends", ENDS), ("Slopes", SLOPES)] {
        println!("\n{title} per second:\n\n{RATES}");
        rows.iter().for_each(|row| println!("{}", rates(row, kind)));
    }
    for (title, kind) in [("ends", ENDS), ("slopes", SLOPES)] {
        println!("\nCost of {title} over energies:\n\n{COST}");
        rows.iter().for_each(|row| println!("{}", cost(row, kind)));
    }
}

fn name(row: &Row) -> String {
    format!("| {} | {} ", PERTURBATIONS[row.perturbation as usize], row.n)
}

fn rates(row: &Row, kind: usize) -> String {
    let [rust, noddyfir] = [RUST, NODDYFIR].map(|side| Spread::of(&row.rates[kind][side]));
    let (ratio, fastest) = (noddyfir.median / rust.median, noddyfir.largest / rust.largest);
    let medians = format!("| {:.0} | {:.0} ", rust.median, noddyfir.median);
    name(row) + &medians + &format!("| {ratio:.1} | {fastest:.1} | {rust} | {noddyfir} |")
}

fn cost(row: &Row, kind: usize) -> String {
    let [rust, noddyfir] = [RUST, NODDYFIR].map(|side| {
        let [energies, others] = [ENERGIES, kind].map(|kind| Spread::of(&row.rates[kind][side]));
        [energies.median / others.median, energies.largest / others.largest]
    });
    let medians = format!("| {:.1} | {:.1} ", rust[0], noddyfir[0]);
    name(row) + &medians + &format!("| {:.1} | {:.1} |", rust[1], noddyfir[1])
}
