//! Which value of a case is outside its interval, or under BH is an att other than 6.

use crate::{Case, Mixture, Perturbation, State};
use std::fmt::{self, Display, Formatter};

/// A value of a case. Substances are counted from 0.
#[derive(Clone, Copy, Debug, PartialEq, Eq)]
pub enum Field {
    /// rep of a substance.
    Rep(usize),
    /// att of a substance.
    Att(usize),
    /// sigma of a substance.
    Sigma(usize),
    /// epsilon_k of a substance.
    EpsilonK(usize),
    /// k_ij of two substances.
    Kij(usize, usize),
    /// l_ij of two substances.
    Lij(usize, usize),
    /// The temperature.
    Temperature,
    /// The partial density of a substance.
    PartialDensity(usize),
    /// The mole fraction of a substance.
    Molefrac(usize),
    /// The sum of the mole fractions, added from the left.
    MolefracSum,
}

impl Field {
    /// The closed interval that the value must lie in, under every perturbation.
    pub fn interval(self) -> [f64; 2] {
        const TOLERANCE: f64 = 1.0 / (1u64 << 40) as f64;
        match self {
            Self::Rep(_) => [8.0, 48.0],
            Self::Att(_) => [5.0, 7.0],
            Self::Sigma(_) => [0.5, 10.0],
            Self::EpsilonK(_) => [0.1, 5000.0],
            Self::Kij(..) => [-0.9, 0.9],
            Self::Lij(..) => [-0.5, 0.5],
            Self::Temperature => [1.0, 5000.0],
            Self::PartialDensity(_) => [0.0, 2.0],
            Self::Molefrac(_) => [0.0, 1.0],
            Self::MolefracSum => [1.0 - TOLERANCE, 1.0 + TOLERANCE],
        }
    }
}

impl Display for Field {
    /// The name, with substances counted from 1.
    fn fmt(&self, f: &mut Formatter) -> fmt::Result {
        match self {
            Self::Rep(i) => write!(f, "rep of substance {}", i + 1),
            Self::Att(i) => write!(f, "att of substance {}", i + 1),
            Self::Sigma(i) => write!(f, "sigma of substance {}", i + 1),
            Self::EpsilonK(i) => write!(f, "epsilon_k of substance {}", i + 1),
            Self::Kij(i, j) => write!(f, "k_ij of substances {} and {}", i + 1, j + 1),
            Self::Lij(i, j) => write!(f, "l_ij of substances {} and {}", i + 1, j + 1),
            Self::Temperature => write!(f, "the temperature"),
            Self::PartialDensity(i) => write!(f, "the density of substance {}", i + 1),
            Self::Molefrac(i) => write!(f, "the fraction of substance {}", i + 1),
            Self::MolefracSum => write!(f, "the sum of the fractions"),
        }
    }
}

/// A value outside its interval, or under BH an att other than 6.
#[derive(Clone, Copy, Debug, PartialEq)]
pub struct FieldAtFault {
    /// Which value.
    pub field: Field,
    /// The value itself.
    pub value: f64,
}

impl FieldAtFault {
    /// What is wrong, without the field's name: "is 4.5, and must be from 5 to 7".
    pub fn complaint(&self) -> String {
        if self.field == Field::MolefracSum {
            return format!("is {}, and must be 1 within 2^-40", self.value);
        }
        if !outside(self) {
            return format!("is {}, and must be 6 under BH", self.value);
        }
        let [least, greatest] = self.field.interval();
        format!("is {}, and must be from {least} to {greatest}", self.value)
    }
}

impl Display for FieldAtFault {
    fn fmt(&self, f: &mut Formatter) -> fmt::Result {
        write!(f, "{} {}", self.field, self.complaint())
    }
}

/// In the order of the checks: codes 7, 12 and 8.
pub(crate) fn first_at_fault(case: &Case) -> Option<FieldAtFault> {
    let first_outside = |fields: Vec<FieldAtFault>| fields.into_iter().find(outside);
    first_outside(substances(case.mixture()))
        .or_else(|| attraction_at_fault(case))
        .or_else(|| first_outside(state(case.state())))
}

/// NaN lies in no interval.
fn outside(fault: &FieldAtFault) -> bool {
    let [least, greatest] = fault.field.interval();
    !(least <= fault.value && fault.value <= greatest)
}

/// The first att other than 6 under BH.
fn attraction_at_fault(case: &Case) -> Option<FieldAtFault> {
    let barker_henderson = case.perturbation() == Perturbation::BarkerHenderson;
    let mut atts = case.mixture().substances().iter().map(|s| s.att).enumerate();
    let (i, value) = atts.find(|&(_, att)| barker_henderson && att != 6.0)?;
    Some(FieldAtFault { field: Field::Att(i), value })
}

/// The values of the substances in the order of the record.
fn substances(mixture: &Mixture) -> Vec<FieldAtFault> {
    let mut all = Vec::new();
    let mut add = |field, value| all.push(FieldAtFault { field, value });
    let n = mixture.substances().len();
    for (i, s) in mixture.substances().iter().enumerate() {
        add(Field::Rep(i), s.rep);
        add(Field::Att(i), s.att);
        add(Field::Sigma(i), s.sigma);
        add(Field::EpsilonK(i), s.epsilon_k);
    }
    let pairs = || (0..n).flat_map(|i| (i + 1..n).map(move |j| (i, j)));
    pairs().for_each(|(i, j)| add(Field::Kij(i, j), mixture.k_ij(i, j)));
    pairs().for_each(|(i, j)| add(Field::Lij(i, j), mixture.l_ij(i, j)));
    all
}

/// The values of the state in the order of the record, and then the sum of the fractions.
fn state(state: &State) -> Vec<FieldAtFault> {
    let mut all = Vec::new();
    let mut add = |field, value| all.push(FieldAtFault { field, value });
    add(Field::Temperature, state.temperature);
    for (i, &density) in state.partial_density.iter().enumerate() {
        add(Field::PartialDensity(i), density);
    }
    for (i, &fraction) in state.molefracs.iter().enumerate() {
        add(Field::Molefrac(i), fraction);
    }
    add(Field::MolefracSum, state.molefracs.iter().fold(0.0, |sum, fraction| sum + fraction));
    all
}
