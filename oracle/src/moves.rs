//! The moves of a record from one version to the other (M-104), on its bytes: version 2 has the l_ij, and
//! everything else is the same.

use crate::record::{self, code, framed, pairs};

/// Writes the record of version 1 in version 2, with every l_ij +0, at the start of `out`, and returns the
/// code. A refused move writes nothing.
pub fn to_version_2(record: &[u8], out: &mut [u8]) -> u8 {
    moved(record, 1, out).err().unwrap_or(0)
}

/// The way back, which needs each l_ij to be +0.
pub fn to_version_1(record: &[u8], out: &mut [u8]) -> u8 {
    moved(record, 2, out).err().unwrap_or(0)
}

fn moved(record: &[u8], from: u8, out: &mut [u8]) -> Result<(), u8> {
    record::envelope(record, &[from])?;
    let bytes = in_other_version(record);
    let place = out.get_mut(..bytes.len()).ok_or(code::ANSWER_BUFFER)?;
    record::read(record)?;
    if parts(record)[1].iter().any(|&byte| byte != 0) {
        return Err(code::PAIR_CONSTANT);
    }
    place.copy_from_slice(&bytes);
    Ok(())
}

/// The record without its l_ij, or with every l_ij +0 where it has none.
fn in_other_version(record: &[u8]) -> Vec<u8> {
    let [before, _, behind] = parts(record);
    let zeros = vec![0; 8 * pairs(record[4].into())];
    let (version, l_ij) = if record[2] == 1 { (2, &zeros[..]) } else { (1, &[][..]) };
    framed(&[&[version], &before[3..], l_ij, behind].concat())
}

/// What stands before the l_ij, the l_ij, of which version 1 has none, and what stands behind them.
fn parts(record: &[u8]) -> [&[u8]; 3] {
    let n = usize::from(record[4]);
    let (before, rest) = record.split_at(5 + 8 * (4 * n + pairs(n)));
    let (l_ij, behind) = rest.split_at(if record[2] == 1 { 0 } else { 8 * pairs(n) });
    [before, l_ij, behind]
}
