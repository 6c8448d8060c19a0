use crate::Refusal;
use crate::bytes::{ENDS_SIZE, ENERGIES_SIZE, REFUSAL_SIZE, SLOPES_SIZE};

/// The three energies, each divided by kT, per cubic ångström.
#[derive(Clone, Copy, Debug, PartialEq)]
pub struct Energies {
    /// The hard spheres.
    pub hard_sphere: f64,
    /// The reference perturbation.
    pub reference: f64,
    /// The attractive perturbation.
    pub attractive: f64,
}

impl Energies {
    /// With their names, in the order of an answer.
    pub fn named(&self) -> [(&'static str, f64); 3] {
        [
            ("hard sphere", self.hard_sphere),
            ("reference", self.reference),
            ("attractive", self.attractive),
        ]
    }
}

/// The lower and the upper end of one energy.
#[derive(Clone, Copy, Debug, PartialEq)]
pub struct Range {
    /// The lower end.
    pub lower: f64,
    /// The upper end.
    pub upper: f64,
}

impl Range {
    /// Whether the number lies between the ends, both included.
    pub fn contains(&self, number: f64) -> bool {
        self.lower <= number && number <= self.upper
    }
}

/// The ends of the three energies.
#[derive(Clone, Copy, Debug, PartialEq)]
pub struct Ends {
    /// Of the hard spheres.
    pub hard_sphere: Range,
    /// Of the reference perturbation.
    pub reference: Range,
    /// Of the attractive perturbation.
    pub attractive: Range,
}

impl Ends {
    /// In the order of an answer.
    pub fn all(&self) -> [Range; 3] {
        [self.hard_sphere, self.reference, self.attractive]
    }
}

/// One energy and its slope along the total density.
#[derive(Clone, Copy, Debug, PartialEq)]
pub struct Sloped {
    /// The energy divided by kT, per cubic ångström.
    pub value: f64,
    /// Its slope: divided by kT, per molecule.
    pub slope: f64,
}

/// The three energies with their slopes along the total density, at fixed temperature and fractions.
#[derive(Clone, Copy, Debug, PartialEq)]
pub struct Slopes {
    /// Of the hard spheres.
    pub hard_sphere: Sloped,
    /// Of the reference perturbation.
    pub reference: Sloped,
    /// Of the attractive perturbation.
    pub attractive: Sloped,
}

impl Slopes {
    /// In the order of an answer.
    pub fn all(&self) -> [Sloped; 3] {
        [self.hard_sphere, self.reference, self.attractive]
    }

    /// The values without the slopes: bit for bit the result of [`energies`](crate::energies).
    pub fn energies(&self) -> Energies {
        Energies::of(&self.all().map(|energy| energy.value))
    }
}

/// What an answer with code 0 holds.
pub(crate) trait Answer: Sized {
    /// The bytes of an answer with code 0.
    const SIZE: usize;

    fn of(doubles: &[f64]) -> Self;
}

impl Answer for Energies {
    const SIZE: usize = ENERGIES_SIZE;

    fn of(doubles: &[f64]) -> Self {
        Self { hard_sphere: doubles[0], reference: doubles[1], attractive: doubles[2] }
    }
}

impl Answer for Ends {
    const SIZE: usize = ENDS_SIZE;

    fn of(doubles: &[f64]) -> Self {
        let range = |i: usize| Range { lower: doubles[2 * i], upper: doubles[2 * i + 1] };
        Self { hard_sphere: range(0), reference: range(1), attractive: range(2) }
    }
}

impl Answer for Slopes {
    const SIZE: usize = SLOPES_SIZE;

    fn of(doubles: &[f64]) -> Self {
        let sloped = |i: usize| Sloped { value: doubles[2 * i], slope: doubles[2 * i + 1] };
        Self { hard_sphere: sloped(0), reference: sloped(1), attractive: sloped(2) }
    }
}

/// Reads the answer at the start of the bytes, and says how many it has. Only code 0 is followed by doubles.
pub(crate) fn read<A: Answer>(bytes: &[u8]) -> (Result<A, Refusal>, usize) {
    if let Some(refusal) = Refusal::from_code(bytes[3]) {
        return (Err(refusal), REFUSAL_SIZE);
    }
    let double = |b: &[u8]| f64::from_be_bytes(b.try_into().expect("a chunk has 8 bytes"));
    let doubles: Vec<f64> = bytes[REFUSAL_SIZE..A::SIZE].chunks_exact(8).map(double).collect();
    (Ok(A::of(&doubles)), A::SIZE)
}

#[cfg(test)]
mod tests {
    use super::{Answer, Ends, Energies, Slopes, read};
    use crate::{Refusal, known};
    use std::fmt::Debug;

    /// A good answer, and the same with another code in it.
    fn only_code_0_is_success<A: Answer + Debug + PartialEq>(good: &[u8]) {
        assert!(matches!(read::<A>(good), (Ok(_), size) if size == A::SIZE));
        let mut answer = good.to_vec();
        for code in 1..=u8::MAX {
            answer[3] = code;
            assert_eq!(read::<A>(&answer), (Err(Refusal::from_code(code).unwrap()), 4));
        }
        answer[3] = 99;
        assert_eq!(read::<A>(&answer), (Err(Refusal::Unknown(99)), 4));
    }

    #[test]
    fn bytes_behind_a_refusal_are_no_energies_no_ends_and_no_slopes() {
        only_code_0_is_success::<Energies>(&known::ENERGIES[0]);
        only_code_0_is_success::<Ends>(&known::ENDS[0]);
        only_code_0_is_success::<Slopes>(&known::SLOPES[0]);
    }
}
