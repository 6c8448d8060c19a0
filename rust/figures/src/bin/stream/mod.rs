//! Case records that stand one after the other, as they are read.

use std::io::{Error, ErrorKind, Read, Result};

/// The record that begins at `place`, or none at the end of the input.
pub fn next(input: &mut impl Read, place: u64) -> Result<Option<Vec<u8>>> {
    let broken = || {
        let message = format!("the record that begins at byte {place} is broken off");
        Error::new(ErrorKind::UnexpectedEof, message)
    };
    let mut record = Vec::new();
    input.take(2).read_to_end(&mut record)?;
    let [high, low] = record[..] else {
        return if record.is_empty() { Ok(None) } else { Err(broken()) };
    };
    let length = u16::from_be_bytes([high, low]);
    input.take(length.into()).read_to_end(&mut record)?;
    if record.len() < 2 + usize::from(length) { Err(broken()) } else { Ok(Some(record)) }
}
