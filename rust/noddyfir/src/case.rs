use crate::field::{FieldAtFault, first_at_fault};
use crate::{Mixture, Perturbation, Refusal, State};

/// What is asked: the energies of a mixture in a state under a perturbation.
#[derive(Clone, Debug, PartialEq)]
pub struct Case {
    perturbation: Perturbation,
    mixture: Mixture,
    state: State,
}

impl Case {
    /// The case, or [`Refusal::Size`] where the state has not one density and one fraction for each substance. Whether
    /// the values are within their intervals is left to the calls.
    ///
    /// ```
    /// use noddyfir::{Case, Mixture, Perturbation, Refusal, State, Substance};
    /// let mixture = Mixture::pure(Substance::new(12.65, 6.0, 3.74, 153.5));
    /// let state = State::with_density(300.0, 0.005, vec![0.5, 0.5]);
    /// assert_eq!(Case::new(Perturbation::BarkerHenderson, mixture, state), Err(Refusal::Size));
    /// ```
    pub fn new(
        perturbation: Perturbation,
        mixture: Mixture,
        state: State,
    ) -> Result<Self, Refusal> {
        let n = mixture.substances().len();
        if state.partial_density.len() != n || state.molefracs.len() != n {
            return Err(Refusal::Size);
        }
        Ok(Self { perturbation, mixture, state })
    }

    /// The perturbation.
    pub fn perturbation(&self) -> Perturbation {
        self.perturbation
    }

    /// The mixture.
    pub fn mixture(&self) -> &Mixture {
        &self.mixture
    }

    /// The state.
    pub fn state(&self) -> &State {
        &self.state
    }

    /// The case record, as `include/noddyfir.h` describes it: of version 1 where every l_ij is +0, so that older readers
    /// take it, and else of version 2, also for an l_ij of −0.
    ///
    /// ```
    /// use noddyfir::{Case, Mixture, Perturbation, State, Substance};
    /// let methane = Substance::new(12.65, 6.0, 3.74, 153.5);
    /// let state = State::with_density(300.0, 0.005, vec![1.0]);
    /// let case = Case::new(Perturbation::WeeksChandlerAndersen, Mixture::pure(methane), state)?;
    /// assert_eq!(case.record().len(), 61);
    /// assert_eq!(case.record()[..13], [0, 59, 1, 1, 1, 0x40, 0x29, 0x4c, 0xcc, 0xcc, 0xcc, 0xcc, 0xcd]);
    ///
    /// let mixture = Mixture::binary(methane, methane, 0.01).with_l_ij(0, 1, 0.02);
    /// let state = State::with_density(300.0, 0.005, vec![0.5, 0.5]);
    /// let case = Case::new(Perturbation::WeeksChandlerAndersen, mixture, state)?;
    /// assert_eq!(case.record()[..5], [0, 123, 2, 1, 2]);
    /// # Ok::<(), noddyfir::Refusal>(())
    /// ```
    pub fn record(&self) -> Vec<u8> {
        let mut record = Vec::new();
        self.write_record(&mut record);
        record
    }

    /// Adds the record at the end.
    pub(crate) fn write_record(&self, records: &mut Vec<u8>) {
        let start = records.len();
        let n = self.mixture.substances().len() as u8;
        let [k_ij, l_ij] = self.mixture.pairs();
        let first = l_ij.iter().all(|l_ij| l_ij.to_bits() == 0);
        records.extend([0, 0, if first { 1 } else { 2 }, self.perturbation.byte(), n]);
        for s in self.mixture.substances() {
            put(records, &[s.rep, s.att, s.sigma, s.epsilon_k]);
        }
        put(records, k_ij);
        put(records, if first { &[] } else { l_ij });
        put(records, &[self.state.temperature]);
        put(records, &self.state.partial_density);
        put(records, &self.state.molefracs);
        // At most 843.
        let length = (records.len() - start - 2) as u16;
        records[start..start + 2].copy_from_slice(&length.to_be_bytes());
    }

    /// The first value, in the order of the checks, that is outside its interval; so for [`Refusal::Substances`],
    /// [`Refusal::Attraction`] and [`Refusal::State`] the one that is refused. The refusal itself is the proved library's;
    /// this only names the field.
    ///
    /// ```
    /// use noddyfir::{Case, Field, Mixture, Perturbation, Refusal, State, Substance, energies};
    /// let mixture = Mixture::pure(Substance::new(12.65, 4.5, 3.74, 153.5));
    /// let state = State::with_density(300.0, 0.005, vec![1.0]);
    /// let case = Case::new(Perturbation::WeeksChandlerAndersen, mixture, state)?;
    /// assert_eq!(energies(&case), Err(Refusal::Substances));
    /// let fault = case.field_at_fault().unwrap();
    /// assert_eq!(fault.field, Field::Att(0));
    /// assert_eq!(fault.to_string(), "att of substance 1 is 4.5, and must be from 5 to 7");
    /// # Ok::<(), Refusal>(())
    /// ```
    pub fn field_at_fault(&self) -> Option<FieldAtFault> {
        first_at_fault(self)
    }
}

fn put(records: &mut Vec<u8>, values: &[f64]) {
    values.iter().for_each(|value| records.extend(value.to_be_bytes()));
}
