use crate::answer::{Answer, read};
use crate::{Case, Ends, Energies, Fault, Refusal, Slopes, bytes};

/// The energies of a case.
///
/// ```
/// use noddyfir::{Case, Mixture, Perturbation, State, Substance, energies};
/// let mixture = Mixture::pure(Substance::new(12.65, 6.0, 3.74, 153.5));
/// let state = State::with_density(300.0, 0.005, vec![1.0]);
/// let case = Case::new(Perturbation::WeeksChandlerAndersen, mixture, state)?;
/// assert_eq!(energies(&case)?.hard_sphere, 0.00297321559988996);
/// # Ok::<(), noddyfir::Refusal>(())
/// ```
pub fn energies(case: &Case) -> Result<Energies, Refusal> {
    answer(case, bytes::energies)
}

/// The ends of the energies of a case. Where they exist, [`energies`] has a result too, and each lies between its ends.
///
/// ```
/// use noddyfir::{Case, Mixture, Perturbation, Refusal, State, Substance, ends, energies};
/// let mixture = Mixture::pure(Substance::new(12.65, 6.0, 3.74, 100.0));
/// let case = |temperature| {
///     let state = State::with_density(temperature, 0.005, vec![1.0]);
///     Case::new(Perturbation::WeeksChandlerAndersen, mixture.clone(), state)
/// };
/// let (value, range) = (energies(&case(301.0)?)?.reference, ends(&case(301.0)?)?.reference);
/// assert!(range.contains(value));
/// // At a round multiple of epsilon_k there are energies and no ends.
/// assert!(energies(&case(300.0)?).is_ok());
/// assert_eq!(ends(&case(300.0)?), Err(Refusal::Ends));
/// # Ok::<(), Refusal>(())
/// ```
pub fn ends(case: &Case) -> Result<Ends, Refusal> {
    answer(case, bytes::ends)
}

/// The energies of a case with their slopes along the total density, at fixed temperature and fractions. The values are
/// bit for bit those of [`energies`]; a slope is what the rules of differentiation give in doubles. Slopes have no ends.
///
/// The densities move along the fractions: each partial density starts with the slope of its own fraction. Where the
/// densities are not the fractions times their sum, the slope is still that, from the densities as sent, and no longer
/// along a line of fixed composition.
///
/// ```
/// use noddyfir::{Case, Mixture, Perturbation, Refusal, State, Substance, energies, slopes};
/// let mixture = Mixture::pure(Substance::new(12.65, 6.0, 3.74, 153.5));
/// let case = |density| {
///     let state = State::with_density(300.0, density, vec![1.0]);
///     Case::new(Perturbation::WeeksChandlerAndersen, mixture.clone(), state)
/// };
/// let (sloped, step) = (slopes(&case(0.005)?)?, 1e-6);
/// assert_eq!(sloped.energies(), energies(&case(0.005)?)?);
/// // Nearly the quotient of two differences.
/// let [above, below] = [energies(&case(0.005 + step)?)?, energies(&case(0.005 - step)?)?];
/// let quotient = (above.attractive - below.attractive) / (2.0 * step);
/// assert!((sloped.attractive.slope - quotient).abs() < 1e-8);
/// # Ok::<(), Refusal>(())
/// ```
pub fn slopes(case: &Case) -> Result<Slopes, Refusal> {
    answer(case, bytes::slopes)
}

fn answer<A: Answer>(
    case: &Case,
    call: fn(&[u8], &mut [u8]) -> Result<u8, Fault>,
) -> Result<A, Refusal> {
    let mut answer = vec![0; A::SIZE];
    // By the code that is returned, since code 1 writes nothing.
    match Refusal::from_code(call(&case.record(), &mut answer)?) {
        Some(refusal) => Err(refusal),
        None => read(&answer).0,
    }
}

#[cfg(test)]
mod tests {
    use super::answer;
    use crate::{Case, Energies, Fault, Mixture, Perturbation, Refusal, State, Substance};

    fn refused(call: fn(&[u8], &mut [u8]) -> Result<u8, Fault>) -> Refusal {
        let mixture = Mixture::pure(Substance::new(12.65, 6.0, 3.74, 153.5));
        let state = State::with_density(301.0, 0.005, vec![1.0]);
        let case = Case::new(Perturbation::WeeksChandlerAndersen, mixture, state).unwrap();
        answer::<Energies>(&case, call).unwrap_err()
    }

    #[test]
    fn a_code_that_is_not_known_is_a_refusal() {
        let unknown = refused(|_, answer| {
            answer[..4].copy_from_slice(&[0, 2, 1, 99]);
            Ok(99)
        });
        assert_eq!(unknown, Refusal::Unknown(99));
    }

    #[test]
    fn a_refusal_that_writes_nothing_is_a_refusal() {
        assert_eq!(refused(|_, _| Ok(1)), Refusal::AnswerBuffer);
    }
}
