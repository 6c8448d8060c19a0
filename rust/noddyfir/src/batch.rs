//! Many cases in one run of the proved library.

use crate::answer::{Answer, read};
use crate::bytes::{self, Run};
use crate::{Case, Ends, Energies, Fault, Refusal, Slopes};

/// So many cases are sent at a time, to bound the memory.
const PART: usize = 1024;

/// The energies of many cases, in their order: for each the result of [`energies`](crate::energies).
///
/// ```
/// use noddyfir::{Case, Mixture, Perturbation, Refusal, State, Substance, energies, run_energies};
/// let mixture = Mixture::pure(Substance::new(12.65, 6.0, 3.74, 153.5));
/// let case = |density| {
///     let state = State::with_density(300.0, density, vec![1.0]);
///     Case::new(Perturbation::BarkerHenderson, mixture.clone(), state)
/// };
/// let cases = [case(0.001)?, case(3.0)?, case(0.002)?];
/// let results = run_energies(&cases);
/// assert_eq!(results[0], energies(&cases[0]));
/// assert_eq!(results[1], Err(Refusal::State));
/// assert_eq!(results[2], energies(&cases[2]));
/// # Ok::<(), Refusal>(())
/// ```
pub fn run_energies(cases: &[Case]) -> Vec<Result<Energies, Refusal>> {
    run(cases, bytes::run_energies)
}

/// The ends of many cases, in their order: for each the result of [`ends`](crate::ends).
///
/// ```
/// use noddyfir::{Case, Mixture, Perturbation, State, Substance, ends, run_ends};
/// let mixture = Mixture::pure(Substance::new(12.65, 6.0, 3.74, 153.5));
/// let state = State::with_density(301.0, 0.001, vec![1.0]);
/// let case = Case::new(Perturbation::BarkerHenderson, mixture, state)?;
/// assert_eq!(run_ends(&[case.clone()]), [ends(&case)]);
/// # Ok::<(), noddyfir::Refusal>(())
/// ```
pub fn run_ends(cases: &[Case]) -> Vec<Result<Ends, Refusal>> {
    run(cases, bytes::run_ends)
}

/// The energies of many cases with their slopes, in their order: for each the result of [`slopes`](crate::slopes).
///
/// ```
/// use noddyfir::{Case, Mixture, Perturbation, State, Substance, run_slopes, slopes};
/// let mixture = Mixture::pure(Substance::new(12.65, 6.0, 3.74, 153.5));
/// let state = State::with_density(301.0, 0.001, vec![1.0]);
/// let case = Case::new(Perturbation::BarkerHenderson, mixture, state)?;
/// assert_eq!(run_slopes(&[case.clone()]), [slopes(&case)]);
/// # Ok::<(), noddyfir::Refusal>(())
/// ```
pub fn run_slopes(cases: &[Case]) -> Vec<Result<Slopes, Refusal>> {
    run(cases, bytes::run_slopes)
}

type Call = fn(&[u8], &mut [u8]) -> Result<Run, Fault>;

fn run<A: Answer>(cases: &[Case], call: Call) -> Vec<Result<A, Refusal>> {
    let mut results = Vec::with_capacity(cases.len());
    let (mut records, mut answers) = (Vec::new(), vec![0; PART.min(cases.len()) * A::SIZE]);
    for part in cases.chunks(PART) {
        records.clear();
        part.iter().for_each(|case| case.write_record(&mut records));
        match call(&records, &mut answers) {
            Ok(run) => results.extend(read_all(&answers[..run.written], part.len())),
            Err(fault) => results.extend(part.iter().map(|_| Err(fault.into()))),
        }
    }
    results
}

/// So many answers that stand one after the other. There is room for each, so the library answers every case; were it
/// otherwise, results would go to the wrong cases.
fn read_all<A: Answer>(mut answers: &[u8], count: usize) -> Vec<Result<A, Refusal>> {
    let mut results = Vec::with_capacity(count);
    while !answers.is_empty() {
        let (result, size) = read(answers);
        results.push(result);
        answers = &answers[size..];
    }
    assert_eq!(results.len(), count, "an answer for each case");
    results
}

#[cfg(test)]
mod tests {
    use super::{read_all, run};
    use crate::bytes::{Reason, Run};
    use crate::{Case, Energies, Mixture, Perturbation, Refusal, State, Substance, known};

    const REFUSED: [u8; 4] = [0, 2, 1, 99];

    #[test]
    fn a_code_that_is_not_known_keeps_the_place() {
        let [good, other] = [&known::ENERGIES[0][..], &known::ENERGIES[1][..]];
        let [first] = read_all::<Energies>(good, 1)[..] else { panic!("one answer") };
        let [last] = read_all::<Energies>(other, 1)[..] else { panic!("one answer") };
        assert!(first.is_ok() && last.is_ok() && first != last);
        let answers = [good, &REFUSED, other].concat();
        assert_eq!(read_all(&answers, 3), [first, Err(Refusal::Unknown(99)), last]);
    }

    #[test]
    fn a_run_of_such_codes_has_a_result_for_each_case() {
        let mixture = Mixture::pure(Substance::new(12.65, 6.0, 3.74, 153.5));
        let state = State::with_density(301.0, 0.005, vec![1.0]);
        let case = Case::new(Perturbation::BarkerHenderson, mixture, state).unwrap();
        let results = run::<Energies>(&[case.clone(), case], |records, answers| {
            answers[..8].copy_from_slice(&[REFUSED, REFUSED].concat());
            Ok(Run { records: 2, read: records.len(), written: 8, reason: Reason::UsedUp })
        });
        assert_eq!(results, [Err(Refusal::Unknown(99)); 2]);
    }

    #[test]
    #[should_panic = "an answer for each case"]
    fn answers_that_are_missing_are_seen() {
        read_all::<Energies>(&REFUSED, 2);
    }
}
