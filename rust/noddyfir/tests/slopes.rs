//! Energies with their slopes: the values are the energies, and the slopes are near quotients of differences.

use noddyfir::{
    Case, Mixture, Perturbation, Refusal, Slopes, State, Substance, energies, pressure, run_slopes,
    slopes,
};

fn argon_methane() -> Mixture {
    let argon = Substance::new(12.26, 6.0, 3.404, 117.84);
    Mixture::binary(argon, Substance::new(12.65, 6.0, 3.7412, 153.36), 0.01)
}

/// Eight substances that differ; BH takes att 6 alone.
fn eight(perturbation: Perturbation) -> (Mixture, Vec<f64>) {
    let substance = |i: i32| {
        let i = f64::from(i);
        let att = if perturbation == Perturbation::BarkerHenderson { 6.0 } else { 5.5 + 0.2 * i };
        Substance::new(10.0 + 2.0 * i, att, 2.5 + 0.2 * i, 40.0 + 30.0 * i)
    };
    let fractions = [1.0, 2.0, 3.0, 4.0, 5.0, 6.0, 7.0, 4.0].map(|part| part / 32.0);
    (Mixture::new((0..8).map(substance).collect()).unwrap(), fractions.to_vec())
}

fn mixtures(perturbation: Perturbation) -> [(Mixture, Vec<f64>); 3] {
    let pure = Mixture::pure(Substance::new(20.0, 6.0, 3.0, 100.0));
    [(pure, vec![1.0]), (argon_methane(), vec![0.8, 0.2]), eight(perturbation)]
}

/// A case of each perturbation, mixture, temperature and density, at a relative change of the density.
fn cases(change: f64) -> Vec<Case> {
    let mut cases = Vec::new();
    for perturbation in Perturbation::ALL {
        for (mixture, fractions) in mixtures(perturbation) {
            for (temperature, density) in [(150.3, 1e-4), (293.15, 0.005), (412.7, 0.015)] {
                let density = density * (1.0 + change);
                let state = State::with_density(temperature, density, fractions.clone());
                cases.push(Case::new(perturbation, mixture.clone(), state).unwrap());
            }
        }
    }
    cases
}

fn answered(change: f64) -> Vec<Slopes> {
    run_slopes(&cases(change)).into_iter().map(|slopes| slopes.expect("slopes")).collect()
}

#[test]
fn the_values_are_the_energies_bit_for_bit() {
    for case in cases(0.0) {
        let bits = |(_, value): (&str, f64)| value.to_bits();
        let sloped = slopes(&case).unwrap();
        assert_eq!(sloped.energies().named().map(bits), energies(&case).unwrap().named().map(bits));
    }
}

#[test]
fn a_run_has_the_results_of_the_single_calls() {
    let cases = cases(0.0);
    let single: Vec<_> = cases.iter().map(slopes).collect();
    assert_eq!(run_slopes(&cases), single);
    assert!(run_slopes(&[]).is_empty());
}

/// Five points: what is left out is of the fourth order in the step. The reference of BH is what nearly equal terms leave,
/// so its energies have fewer good figures.
#[test]
fn slopes_are_near_quotients_of_differences() {
    let step = 1e-3;
    let [left2, left, right, right2] = [-2.0, -1.0, 1.0, 2.0].map(|i| answered(i * step));
    for (place, (case, sloped)) in cases(0.0).iter().zip(answered(0.0)).enumerate() {
        for (i, energy) in sloped.all().into_iter().enumerate() {
            let value = |at: &[Slopes]| at[place].all()[i].value;
            let near = 8.0 * (value(&right) - value(&left)) - (value(&right2) - value(&left2));
            let quotient = near / (12.0 * step * case.state().density());
            let apart = (energy.slope - quotient).abs() / quotient.abs();
            assert!(apart < 1e-7, "{case:?}: {} and {quotient}, {apart:e}", energy.slope);
        }
    }
}

/// Under BH a subnormal density has energies, but a slope on the way divides by a square that vanishes.
#[test]
fn energies_without_slopes() {
    let argon = Mixture::pure(Substance::new(12.26, 6.0, 3.404, 117.84));
    let case = |density| {
        let state = State::with_density(293.15, density, vec![1.0]);
        Case::new(Perturbation::BarkerHenderson, argon.clone(), state).unwrap()
    };
    let small = case(1e-320);
    assert!(energies(&small).is_ok());
    assert_eq!(slopes(&small), Err(Refusal::Slopes));
    assert_eq!(pressure(&small), Err(Refusal::Slopes));
    assert_eq!(Refusal::Slopes.code(), Some(11));
    // A density of 0 has slopes, and one that is too large for the energies is refused as they are.
    assert!(slopes(&case(0.0)).is_ok());
    assert_eq!(slopes(&case(0.1)), Err(Refusal::Arithmetic));
    assert_eq!(slopes(&case(3.0)), Err(Refusal::State));
    assert_eq!(run_slopes(&[small, case(3.0)]), [Err(Refusal::Slopes), Err(Refusal::State)]);
}

/// Densities move along the fractions, also where they are not the fractions times their sum.
#[test]
fn each_density_moves_by_its_own_fraction() {
    let at = |step: f64| {
        let partial_density = vec![0.001 + 0.8 * step, 0.004 + 0.2 * step];
        let state = State { temperature: 293.15, partial_density, molefracs: vec![0.8, 0.2] };
        let case = Case::new(Perturbation::WeeksChandlerAndersen, argon_methane(), state);
        slopes(&case.unwrap()).unwrap().attractive
    };
    let step = 1e-6;
    let quotient = (at(step).value - at(-step).value) / (2.0 * step);
    assert!((at(0.0).slope - quotient).abs() < 1e-8, "{} and {quotient}", at(0.0).slope);
}
