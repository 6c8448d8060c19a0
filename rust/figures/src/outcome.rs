//! The answers of the proved library to a case, looked at before they are printed.

use crate::arguments::Variable;
use crate::failure::Failure;
use crate::input::Input;
use noddyfir::{
    Case, Ends, Energies, Field, FieldAtFault, Pressure, Range, Refusal, Slopes, run_ends,
    run_energies, run_slopes,
};

#[derive(Clone, Copy, Debug)]
pub struct Outcome {
    pub energies: Result<Energies, Refusal>,
    pub ends: Result<Ends, Refusal>,
    /// With the pressure that is worked from them; none where they are not asked for.
    pub slopes: Option<Result<(Slopes, Pressure), Refusal>>,
}

/// One energy. Where there are no ends, no figure is certain.
pub struct Energy {
    pub name: &'static str,
    pub value: f64,
    pub range: Option<Range>,
}

impl Energy {
    pub fn certain_figures(&self) -> usize {
        self.range.map_or(0, |range| range.certain_figures())
    }
}

/// The outcomes of the cases, in their order, with slopes and pressure where these are asked for.
pub fn outcomes(cases: &[Case], with_pressure: bool) -> Result<Vec<Outcome>, Failure> {
    let slopes = if with_pressure { slopes(cases) } else { vec![None; cases.len()] };
    let answers = run_energies(cases).into_iter().zip(run_ends(cases)).zip(slopes);
    let checked = |((energies, ends), slopes)| {
        let outcome = Outcome { energies, ends, slopes };
        outcome.check().and_then(|()| outcome.check_slopes()).map(|()| outcome)
    };
    answers.map(checked).collect()
}

fn slopes(cases: &[Case]) -> Vec<Option<Result<(Slopes, Pressure), Refusal>>> {
    let with_pressure = |(slopes, case): (Result<Slopes, Refusal>, &Case)| {
        Some(slopes.map(|slopes| (slopes, Pressure::of(&slopes, case.state()))))
    };
    run_slopes(cases).into_iter().zip(cases).map(with_pressure).collect()
}

impl Outcome {
    /// What is proved must be seen: where there are ends, there are energies, and each lies between its ends.
    fn check(&self) -> Result<(), Failure> {
        match (self.energies, self.ends) {
            (Err(Refusal::Unfit(fault)), _) | (_, Err(Refusal::Unfit(fault))) => {
                Err(Failure::unfit(fault))
            }
            (Ok(energies), Ok(ends)) => {
                let outside = |((name, value), range): (_, Range)| {
                    (!range.contains(value)).then(|| format!("{name}: {value:e} and {range:?}"))
                };
                let mut pairs = energies.named().into_iter().zip(ends.all());
                pairs.find_map(outside).map_or(Ok(()), |text| Err(Failure::contradiction(text)))
            }
            // What a code that is not known says of energies without ends is not known either.
            (Ok(_), Err(Refusal::Ends | Refusal::Unknown(_))) => Ok(()),
            (Err(energies), Err(ends)) if energies == ends => Ok(()),
            (energies, ends) => {
                Err(Failure::contradiction(format!("energies {energies:?} and ends {ends:?}")))
            }
        }
    }

    /// The same for slopes: their values are the energies, bit for bit, and they are refused as these or by code 11.
    fn check_slopes(&self) -> Result<(), Failure> {
        match (self.energies, self.slopes) {
            (_, None) => Ok(()),
            (_, Some(Err(Refusal::Unfit(fault)))) => Err(Failure::unfit(fault)),
            (Ok(energies), Some(Ok((slopes, _)))) if bits(energies) == bits(slopes.energies()) => {
                Ok(())
            }
            (Ok(_), Some(Err(Refusal::Slopes | Refusal::Unknown(_)))) => Ok(()),
            (Err(energies), Some(Err(slopes))) if energies == slopes => Ok(()),
            (energies, slopes) => {
                Err(Failure::contradiction(format!("energies {energies:?} and slopes {slopes:?}")))
            }
        }
    }

    /// Why there are no ends, and why no slopes where these are asked for, each reason once. Where there are no energies
    /// there is one reason.
    pub fn refusals(&self) -> Vec<Refusal> {
        let mut refusals: Vec<Refusal> = self.ends.err().into_iter().collect();
        refusals
            .extend(self.slopes.and_then(Result::err).filter(|other| !refusals.contains(other)));
        refusals
    }

    /// 0 where there are ends, and slopes if these are asked for, and nowhere else.
    pub fn code(&self) -> Option<u8> {
        self.refusals().first().map_or(Some(0), |refusal| refusal.code())
    }

    /// The slopes and the pressure, where these are asked for and there are any.
    pub fn sloped(&self) -> Option<(Slopes, Pressure)> {
        self.slopes.and_then(Result::ok)
    }

    /// The three energies, or none where they are refused.
    pub fn list(&self) -> Vec<Energy> {
        let Ok(energies) = self.energies else { return Vec::new() };
        let ranges = self.ends.map_or([None; 3], |ends| ends.all().map(Some));
        let energy = |((name, value), range)| Energy { name, value, range };
        energies.named().into_iter().zip(ranges).map(energy).collect()
    }
}

fn bits(energies: Energies) -> [u64; 3] {
    energies.named().map(|(_, value)| value.to_bits())
}

/// What helps where there are no ends.
const HINT: &str = "The usual cause is a round ratio: of the temperature to an epsilon_k (0.75, 1.5, 2, 3), or of rep to \
    att (9 to 6, or under WCA 12 to 6). A temperature or a rep close by has ends (docs/DIFFERENCES.md, \"Records without \
    ends\").";

/// The reasons why something is missing of an outcome.
pub fn reasons(
    outcome: &Outcome,
    case: &Case,
    input: &Input,
    swept: Option<Variable>,
) -> Option<String> {
    let refusals = outcome.refusals();
    let reasons = refusals.iter().map(|&refusal| explain(refusal, case, input, swept));
    (!refusals.is_empty()).then(|| reasons.collect::<Vec<_>>().join(" "))
}

/// The sentence of a refusal, with the field at fault where that is the reason. What a sweep puts in has no line of the
/// file.
fn explain(refusal: Refusal, case: &Case, input: &Input, swept: Option<Variable>) -> String {
    let code = refusal.code().map_or(String::new(), |code| format!(" (code {code})"));
    let sentence = format!("Refused{code}. {refusal}");
    if refusal == Refusal::Ends {
        return format!("{sentence} {HINT}");
    }
    let by_field = matches!(refusal, Refusal::Substances | Refusal::Attraction | Refusal::State);
    let Some(fault) = case.field_at_fault().filter(|_| by_field) else { return sentence };
    let fault = cause(case, fault);
    let by_sweep = match fault.field {
        Field::Temperature => swept == Some(Variable::Temperature),
        Field::PartialDensity(_) => swept == Some(Variable::Density),
        _ => false,
    };
    let line = input.line_of(fault.field).filter(|_| !by_sweep);
    let place = line.map_or(String::new(), |line| format!("{}:{line}: ", input.file));
    format!("{place}{} {}. {sentence}", input.name_of(fault.field), fault.complaint())
}

/// A density that is the product of a total density and a fraction is outside because the fraction is, where that is.
fn cause(case: &Case, fault: FieldAtFault) -> FieldAtFault {
    let Field::PartialDensity(i) = fault.field else { return fault };
    let fraction = FieldAtFault { field: Field::Molefrac(i), value: case.state().molefracs[i] };
    let [least, greatest] = fraction.field.interval();
    if least <= fraction.value && fraction.value <= greatest { fault } else { fraction }
}

#[cfg(test)]
mod tests {
    use super::Outcome;
    use crate::csv;
    use noddyfir::{Energies, Fault, Pressure, Refusal, Sloped, Slopes};

    const ENERGIES: Energies = Energies { hard_sphere: 0.5, reference: 0.25, attractive: -0.5 };

    #[test]
    fn a_code_that_is_not_known_is_printed_as_a_refusal() {
        let refusal = Refusal::Unknown(99);
        let refused = Outcome { energies: Err(refusal), ends: Err(refusal), slopes: None };
        assert!(refused.check().is_ok() && refused.list().is_empty());
        assert_eq!(csv::line(1.0, &refused, Some("why")), "1,99,,,,,,,,,,,,,\"why\"");
        let without_ends = Outcome { energies: Ok(ENERGIES), ..refused };
        assert!(without_ends.check().is_ok());
        assert!(without_ends.list().iter().all(|energy| energy.range.is_none()));
        assert_eq!(without_ends.code(), Some(99));
    }

    #[test]
    fn a_fault_has_no_code_and_is_no_success() {
        let unfit = Refusal::Unfit(Fault::Rounding);
        let outcome = Outcome { energies: Ok(ENERGIES), ends: Err(unfit), slopes: None };
        assert!(outcome.check().is_err());
        assert_eq!(outcome.code(), None);
        let refused = Outcome { energies: Err(unfit), ..outcome };
        assert!(csv::line(1.0, &refused, None).starts_with("1,,,"));
    }

    /// An outcome with these energies and slopes of these values.
    fn with_slopes(energies: Energies, values: Energies) -> Outcome {
        let sloped = |value| Sloped { value, slope: 2.0 };
        let slopes = Slopes {
            hard_sphere: sloped(values.hard_sphere),
            reference: sloped(values.reference),
            attractive: sloped(values.attractive),
        };
        let pressure = Pressure { ideal: 1.5, residual: -0.5 };
        let slopes = Some(Ok((slopes, pressure)));
        Outcome { energies: Ok(energies), ends: Err(Refusal::Ends), slopes }
    }

    #[test]
    fn slopes_that_contradict_the_energies_are_seen() {
        assert!(with_slopes(ENERGIES, ENERGIES).check_slopes().is_ok());
        let zero = Energies { reference: 0.0, ..ENERGIES };
        let other_sign = Energies { reference: -0.0, ..ENERGIES };
        assert!(with_slopes(zero, other_sign).check_slopes().is_err());
        let refused = |energies, slopes| {
            let slopes = Some(Err(slopes));
            Outcome { energies, ends: Err(Refusal::Ends), slopes }.check_slopes().is_ok()
        };
        assert!(refused(Ok(ENERGIES), Refusal::Slopes));
        assert!(refused(Ok(ENERGIES), Refusal::Unknown(99)));
        assert!(refused(Err(Refusal::State), Refusal::State));
        assert!(!refused(Ok(ENERGIES), Refusal::Arithmetic));
        assert!(!refused(Err(Refusal::State), Refusal::Slopes));
        assert!(!refused(Ok(ENERGIES), Refusal::Unfit(Fault::Rounding)));
    }

    #[test]
    fn slopes_and_pressure_are_cells_of_their_own() {
        let outcome = with_slopes(ENERGIES, ENERGIES);
        assert_eq!(outcome.refusals(), [Refusal::Ends]);
        let cells = "1,10,0.5,,,0,0.25,,,0,-0.5,,,0,2.0,2.0,2.0,1.5,-0.5,1.0,\"why\"";
        assert_eq!(csv::line(1.0, &outcome, Some("why")), cells);
        let refused = Outcome { slopes: Some(Err(Refusal::Slopes)), ..outcome };
        assert_eq!(refused.refusals(), [Refusal::Ends, Refusal::Slopes]);
        let cells = "1,10,0.5,,,0,0.25,,,0,-0.5,,,0,,,,,,,\"why\"";
        assert_eq!(csv::line(1.0, &refused, Some("why")), cells);
    }
}
