//! moves < records: tries both moves of each record, with buffers of several lengths, and writes each time
//! the code and then the buffer with some bytes behind it. A record that moves to version 2 is tried there
//! too. tests/c/moves.c does the same with the library. How many records there are goes to standard error.

use oracle::moves::{to_version_1, to_version_2};
use oracle::record::{length, pairs};
use std::io::{BufWriter, Read, Result, Write, stdin, stdout};

const ROOM: usize = 900;
/// So many bytes behind a buffer are looked at.
const BEHIND: usize = 8;

fn main() -> Result<()> {
    let mut records = Vec::new();
    stdin().lock().read_to_end(&mut records)?;
    let mut output = BufWriter::new(stdout().lock());
    let (mut rest, mut count, mut moved) = (&records[..], 0, 0);
    while !rest.is_empty() {
        let (record, behind) = rest.split_at(first(rest));
        try_record(record, &mut output)?;
        let mut buffer = [0; ROOM];
        if to_version_2(record, &mut buffer) == 0 {
            try_record(&buffer[..length(&buffer) + 2], &mut output)?;
            moved += 1;
        }
        count += 1;
        rest = behind;
    }
    eprintln!("{count} records, of which {moved} move to version 2 and back");
    output.flush()
}

/// The bytes of the first record; what is broken off counts as one.
fn first(rest: &[u8]) -> usize {
    if rest.len() < 2 { rest.len() } else { rest.len().min(length(rest) + 2) }
}

fn try_record(record: &[u8], output: &mut impl Write) -> Result<()> {
    for room in rooms(record) {
        for call in [to_version_2, to_version_1] {
            let mut buffer: Vec<u8> = (0..room + BEHIND).map(untouched).collect();
            let code = call(record, &mut buffer[..room]);
            output.write_all(&[code])?;
            output.write_all(&buffer)?;
        }
    }
    Ok(())
}

/// 0, 4, 900 bytes, and about the sizes that the record has in both versions, whichever is its own.
fn rooms(record: &[u8]) -> Vec<usize> {
    let n = record.get(4).copied().filter(|&n| n <= 8).unwrap_or(0);
    let l_ij = 8 * pairs(n.into());
    let sizes = [record.len().saturating_sub(l_ij), record.len(), record.len() + l_ij];
    let about = sizes.map(|size| [size.saturating_sub(1), size, size + 1]);
    [&[0, 4, ROOM], about.as_flattened()].concat()
}

/// A byte that tells its place.
fn untouched(place: usize) -> u8 {
    (31 * place + 7) as u8
}
