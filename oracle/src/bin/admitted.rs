//! admitted < records: how many records of each perturbation and of each version pass the checks. Status 1
//! where fewer than half of one of these do: a comparison on such records would see little but refusals.

use oracle::record::{read, split};
use std::io::{Read, Result, stdin};

/// Each name with the place of its byte in a record, and the byte.
const KINDS: [(&str, usize, u8); 5] = [
    ("BH records", 3, 0),
    ("WCA records", 3, 1),
    ("WCA-B3 records", 3, 2),
    ("records of version 1", 2, 1),
    ("records of version 2", 2, 2),
];

fn main() -> Result<()> {
    let mut records = Vec::new();
    stdin().lock().read_to_end(&mut records)?;
    let mut few = false;
    let parts = KINDS.map(|(name, place, byte)| {
        let of_kind = || split(&records).filter(|record| record.get(place) == Some(&byte));
        let (admitted, all) = (of_kind().filter(|r| read(r).is_ok()).count(), of_kind().count());
        few |= 2 * admitted < all;
        format!("{admitted} of {all} {name}")
    });
    println!("{}", parts.join(", "));
    std::process::exit(i32::from(few))
}
