//! Why a case has no answer.

use crate::self_check::Fault;
use std::fmt::{self, Display, Formatter};

/// Why a case has no answer: one of the codes of the specification (document 01), by the place of its check, or a fault
/// of the arithmetic itself. The first code that applies counts.
#[derive(Clone, Copy, Debug, PartialEq, Eq)]
#[non_exhaustive]
pub enum Refusal {
    // written by tools/codes from docs/codes.txt
    /// Code 1: answer buffer, or buffer of a moved record, too short; nothing is written.
    AnswerBuffer,
    /// Code 2: record under 5 bytes, or its length field is wrong.
    Envelope,
    /// Code 3: version neither 1 nor 2, or not the one that a move starts from.
    Version,
    /// Code 4: perturbation above 2.
    Perturbation,
    /// Code 5: number of substances n not 1 to 8.
    Components,
    /// Code 6: length is not that of n substances in the version.
    Size,
    /// Code 7: rep not in 8..48, att 5..7, sigma 0.5..10, epsilon_k 0.1..5000, k_ij -0.9..0.9, or l_ij -0.5..0.5.
    Substances,
    /// Code 8: temperature not in 1..5000, a density 0..2, a fraction 0..1, or the sum of the fractions not 1 within
    /// 2^-40.
    State,
    /// Code 9: a value is not finite, or a function has no rule for its argument.
    Arithmetic,
    /// Code 10: a range rule fails, so there are energies and no ends; from the calls for ends only.
    Ends,
    /// Code 11: a slope is not finite, so there are energies and no slopes; from the calls for slopes only.
    Slopes,
    /// Code 12: perturbation 0 (BH) and an att other than 6; tested between 7 and 8.
    Attraction,
    /// Code 13: an l_ij that is not +0, which version 1 cannot hold; from the move to version 1 only; tested after 8
    /// and 12.
    PairConstant,
    // end of the codes
    /// Another code: the library is newer than this crate. Only code 0 is success.
    Unknown(u8),
    /// Nothing was worked: the arithmetic of this thread is not as the proof assumes it.
    Unfit(Fault),
}

// By code, from 1 on; written by tools/codes from docs/codes.txt.
#[rustfmt::skip]
const CODES: &[(Refusal, &str)] = &[
    (Refusal::AnswerBuffer, "The buffer is too short: energies need 28 bytes, ends and slopes 52, a moved record its \
        own length."),
    (Refusal::Envelope, "The record has under 5 bytes, or its length field is not the number of bytes that follow \
        it."),
    (Refusal::Version, "The version of the record is neither 1 nor 2, or not the one that a move starts from."),
    (Refusal::Perturbation, "The perturbation is none of 0 (BH), 1 (WCA) and 2 (WCA-B3)."),
    (Refusal::Components, "The number of substances is not from 1 to 8."),
    (Refusal::Size, "The length of the record is not that of its version and number of substances."),
    (Refusal::Substances, "A value of the substances is outside its interval: rep 8 to 48, att 5 to 7, sigma 0.5 to 10 \
        angstrom, epsilon_k 0.1 to 5000 kelvin, k_ij -0.9 to 0.9, l_ij -0.5 to 0.5."),
    (Refusal::State, "A value of the state is outside its interval: temperature 1 to 5000 kelvin, densities 0 to 2 per \
        cubic angstrom, fractions 0 to 1 that add up to 1 within 2^-40."),
    (Refusal::Arithmetic, "A value on the way is not a finite number, or a function has no rule for its argument."),
    (Refusal::Ends, "The energies have no ends: on the way, a range holds numbers that take different cases of one \
        rule, or a rule has no result for it."),
    (Refusal::Slopes, "The energies have no slopes: on the way, a slope is not a finite number."),
    (Refusal::Attraction, "Under BH the att of each substance must be 6."),
    (Refusal::PairConstant, "The record does not go back to version 1: an l_ij of it is not +0."),
];
// end of the codes

impl Refusal {
    /// The refusal with this code; 0, which is success, has none.
    ///
    /// ```
    /// use noddyfir::Refusal;
    /// assert_eq!(Refusal::from_code(8), Some(Refusal::State));
    /// assert_eq!(Refusal::from_code(99), Some(Refusal::Unknown(99)));
    /// assert_eq!(Refusal::from_code(0), None);
    /// ```
    pub fn from_code(code: u8) -> Option<Self> {
        let place = usize::from(code).checked_sub(1)?;
        Some(CODES.get(place).map_or(Self::Unknown(code), |(refusal, _)| *refusal))
    }

    /// The code; a fault of the arithmetic has none.
    pub fn code(self) -> Option<u8> {
        match self {
            Self::Unknown(code) => Some(code),
            _ => self.place().map(|place| place as u8 + 1),
        }
    }

    /// A plain sentence.
    ///
    /// ```
    /// use noddyfir::Refusal;
    /// assert_eq!(Refusal::Components.sentence(), "The number of substances is not from 1 to 8.");
    /// ```
    pub fn sentence(self) -> &'static str {
        match (self, self.place()) {
            (Self::Unfit(fault), _) => fault.sentence(),
            (_, Some(place)) => CODES[place].1,
            (_, None) => "The case is refused with a code that this crate does not know.",
        }
    }

    fn place(self) -> Option<usize> {
        CODES.iter().position(|&(refusal, _)| refusal == self)
    }
}

impl Display for Refusal {
    /// The sentence, and behind it a code that is not known, since nothing else tells what it is.
    fn fmt(&self, f: &mut Formatter) -> fmt::Result {
        f.write_str(self.sentence())?;
        match self {
            Self::Unknown(code) => write!(f, " It is code {code}."),
            _ => Ok(()),
        }
    }
}

impl std::error::Error for Refusal {}

impl From<Fault> for Refusal {
    fn from(fault: Fault) -> Self {
        Self::Unfit(fault)
    }
}

#[cfg(test)]
mod tests {
    use super::{CODES, Refusal};

    #[test]
    fn every_code_has_its_own_sentence() {
        for (place, (refusal, sentence)) in CODES.iter().enumerate() {
            let code = place as u8 + 1;
            assert_eq!(Refusal::from_code(code), Some(*refusal));
            assert_eq!((refusal.code(), refusal.sentence()), (Some(code), *sentence));
            assert_eq!(refusal.to_string(), *sentence);
            assert!(CODES[..place].iter().all(|(_, other)| other != sentence));
            assert!(sentence.ends_with('.'));
        }
    }

    #[test]
    fn every_other_code_is_a_refusal_that_keeps_its_number() {
        for code in CODES.len() as u8 + 1..=u8::MAX {
            let refusal = Refusal::from_code(code).unwrap();
            assert_eq!((refusal, refusal.code()), (Refusal::Unknown(code), Some(code)));
            assert!(refusal.to_string().ends_with(&format!("does not know. It is code {code}.")));
        }
        assert_eq!(Refusal::from_code(0), None);
    }
}
