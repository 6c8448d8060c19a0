//! The single call: one case record in, one answer at the start of the buffer.

use crate::failure::{Rule, or_first_failure, unless_failed};
use crate::record::{self, Case, code};
use crate::{over_doubles, over_ranges, over_slopes};

/// The bytes of an answer of code 0; a shorter buffer is refused.
pub const ENERGIES_ROOM: usize = 28;
pub const ENDS_ROOM: usize = 52;
pub const SLOPES_ROOM: usize = 52;

/// The code, which the answer also carries, except for 1, where nothing is written.
pub fn answer_energies(record: &[u8], buffer: &mut [u8]) -> u8 {
    if buffer.len() < ENERGIES_ROOM {
        return code::ANSWER_BUFFER;
    }
    write(record::read(record).and_then(|case| energies(&case)), buffer)
}

/// The same for the ends of the energies, lower before upper.
pub fn answer_ends(record: &[u8], buffer: &mut [u8]) -> u8 {
    if buffer.len() < ENDS_ROOM {
        return code::ANSWER_BUFFER;
    }
    write(record::read(record).and_then(|case| ends(&case)), buffer)
}

/// The same for the energies and their slopes, each value before its slope.
pub fn answer_slopes(record: &[u8], buffer: &mut [u8]) -> u8 {
    if buffer.len() < SLOPES_ROOM {
        return code::ANSWER_BUFFER;
    }
    write(record::read(record).and_then(|case| slopes(&case)), buffer)
}

/// The three energies, or 9.
pub fn energies(case: &Case) -> Result<[f64; 3], u8> {
    let energies = unless_failed(|| over_doubles::contributions(case));
    energies.map(|terms| terms.map(|term| term.value())).ok_or(code::ARITHMETIC)
}

/// The three pairs of ends, or 9 or 10.
pub fn ends(case: &Case) -> Result<[f64; 6], u8> {
    energies(case)?;
    let ranges = unless_failed(|| over_ranges::contributions(case)).ok_or(code::ENDS)?;
    let [a, b, c] = ranges;
    Ok([a.lower, a.upper, b.lower, b.upper, c.lower, c.upper])
}

/// The three pairs of an energy and its slope, or 9 or 11.
pub fn slopes(case: &Case) -> Result<[f64; 6], u8> {
    match or_first_failure(|| over_slopes::contributions(case)) {
        Ok([a, b, c]) => Ok([a.value(), a.slope(), b.value(), b.slope(), c.value(), c.slope()]),
        Err(Rule::Slope) => Err(code::SLOPES),
        Err(_) => Err(code::ARITHMETIC),
    }
}

/// The rule for ranges that fails first on the case, if one does.
pub fn failing_rule(case: &Case) -> Option<Rule> {
    or_first_failure(|| over_ranges::contributions(case)).err()
}

/// Writes an answer and returns its code; the bytes past it are untouched.
fn write<const N: usize>(answer: Result<[f64; N], u8>, buffer: &mut [u8]) -> u8 {
    let (code, values) = match &answer {
        Ok(values) => (0, values.as_slice()),
        Err(code) => (*code, &[][..]),
    };
    let mut body = vec![1, code];
    body.extend(values.iter().flat_map(|v| v.to_be_bytes()));
    let bytes = record::framed(&body);
    buffer[..bytes.len()].copy_from_slice(&bytes);
    code
}
