//! The moves of a record between versions 1 and 2. A record of version 2 has an l_ij for each pair.

use crate::bytes::{self, RECORD_SIZE_MAX};
use crate::{Fault, Refusal};

/// A record of version 1 in version 2: every l_ij is +0, and all else keeps its bytes but for the length. It has the same
/// answers of every call, and [`to_version_1`] gives the same bytes again; both are proved, for every record of version 1
/// that passes the codes 2 to 8 and 12. A record that does not pass them is refused; one of another version is
/// [`Refusal::Version`].
///
/// ```
/// use noddyfir::{Case, Mixture, Perturbation, Refusal, State, Substance, to_version_1, to_version_2};
/// let argon = Substance::new(12.26, 6.0, 3.404, 117.84);
/// let mixture = Mixture::binary(argon, Substance::new(12.65, 6.0, 3.7412, 153.36), 0.01);
/// let state = State::with_density(293.15, 0.005, vec![0.8, 0.2]);
/// let record = Case::new(Perturbation::WeeksChandlerAndersen, mixture, state)?.record();
///
/// let moved = to_version_2(&record)?;
/// assert_eq!((record.len(), moved.len()), (117, 125));
/// assert_eq!((&record[..3], &moved[..3]), (&[0, 115, 1][..], &[0, 123, 2][..]));
/// assert_eq!(to_version_1(&moved)?, record);
/// assert_eq!(to_version_2(&moved), Err(Refusal::Version));
/// # Ok::<(), Refusal>(())
/// ```
pub fn to_version_2(record: &[u8]) -> Result<Vec<u8>, Refusal> {
    moved(record, bytes::to_version_2)
}

/// A record of version 2 in version 1, as [`to_version_2`]; or [`Refusal::PairConstant`] where an l_ij is not +0, since
/// version 1 cannot hold it. −0 is not +0, though it has the same answers.
///
/// ```
/// use noddyfir::{Case, Mixture, Perturbation, Refusal, State, Substance, to_version_1};
/// let argon = Substance::new(12.26, 6.0, 3.404, 117.84);
/// let methane = Substance::new(12.65, 6.0, 3.7412, 153.36);
/// let mixture = Mixture::binary(argon, methane, 0.01).with_l_ij(0, 1, 0.02);
/// let state = State::with_density(293.15, 0.005, vec![0.8, 0.2]);
/// let record = Case::new(Perturbation::WeeksChandlerAndersen, mixture, state)?.record();
/// assert_eq!(to_version_1(&record), Err(Refusal::PairConstant));
/// # Ok::<(), Refusal>(())
/// ```
pub fn to_version_1(record: &[u8]) -> Result<Vec<u8>, Refusal> {
    moved(record, bytes::to_version_1)
}

fn moved(
    record: &[u8],
    call: fn(&[u8], &mut [u8]) -> Result<u8, Fault>,
) -> Result<Vec<u8>, Refusal> {
    let mut out = vec![0; RECORD_SIZE_MAX];
    if let Some(refusal) = Refusal::from_code(call(record, &mut out)?) {
        return Err(refusal);
    }
    out.truncate(2 + usize::from(u16::from_be_bytes([out[0], out[1]])));
    Ok(out)
}
