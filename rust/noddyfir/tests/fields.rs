//! The field that the crate names is at fault exactly where the proved library refuses by code 7, 12 or 8.

use noddyfir::{
    Case, Field, Mixture, Perturbation, Refusal, State, Substance, energies, run_energies,
};

fn argon() -> Substance {
    Substance::new(12.26, 6.0, 3.404, 117.84)
}

/// `pair` is k_ij and l_ij of the last two substances.
fn case(change: impl FnOnce(&mut Substance, &mut [f64; 2], &mut State)) -> Case {
    let (mut last, mut pair) = (Substance::new(12.65, 6.0, 3.7412, 153.36), [0.01, 0.0]);
    let mut state = State::with_density(293.15, 0.005, vec![0.5, 0.25, 0.25]);
    change(&mut last, &mut pair, &mut state);
    let mixture = Mixture::new(vec![argon(), argon(), last]).unwrap();
    let mixture = mixture.with_k_ij(2, 1, pair[0]).with_l_ij(2, 1, pair[1]);
    Case::new(Perturbation::WeeksChandlerAndersen, mixture, state).unwrap()
}

/// The same under BH, with this att of the first substance.
fn under_bh(case: &Case, att: f64) -> Case {
    let mut substances = case.mixture().substances().to_vec();
    substances[0].att = att;
    let mixture = Mixture::new(substances).unwrap();
    Case::new(Perturbation::BarkerHenderson, mixture, case.state().clone()).unwrap()
}

/// A change of one value, by the name of its field.
fn changed(field: Field, value: f64) -> Case {
    case(|last, pair, state| match field {
        Field::Rep(_) => last.rep = value,
        Field::Att(_) => last.att = value,
        Field::Sigma(_) => last.sigma = value,
        Field::EpsilonK(_) => last.epsilon_k = value,
        Field::Kij(..) => pair[0] = value,
        Field::Lij(..) => pair[1] = value,
        Field::Temperature => state.temperature = value,
        Field::PartialDensity(_) => state.partial_density[2] = value,
        Field::Molefrac(_) => state.molefracs = vec![1.0 - value, 0.0, value],
        Field::MolefracSum => state.molefracs = vec![0.25, 0.25, value - 0.5],
    })
}

const FIELDS: [Field; 10] = [
    Field::Rep(2),
    Field::Att(2),
    Field::Sigma(2),
    Field::EpsilonK(2),
    Field::Kij(1, 2),
    Field::Lij(1, 2),
    Field::Temperature,
    Field::PartialDensity(2),
    Field::Molefrac(2),
    Field::MolefracSum,
];

fn refused(field: Field) -> Refusal {
    match field {
        Field::Rep(_) | Field::Att(_) | Field::Sigma(_) | Field::EpsilonK(_) => Refusal::Substances,
        Field::Kij(..) | Field::Lij(..) => Refusal::Substances,
        _ => Refusal::State,
    }
}

#[test]
fn beyond_each_limit_the_field_is_named() {
    for field in FIELDS {
        let [least, greatest] = field.interval();
        for value in [least.next_down(), greatest.next_up(), f64::NAN, f64::INFINITY, -1e300] {
            let named = changed(field, value);
            let fault = named.field_at_fault().expect("a value is outside");
            assert_eq!(energies(&named), Err(refused(field)), "{field} {value}");
            // Where one fraction is far outside, another or itself is found before the sum.
            let fractions = matches!(field, Field::Molefrac(_) | Field::MolefracSum);
            let found =
                fault.field == field || fractions && matches!(fault.field, Field::Molefrac(_));
            assert!(found, "{field} {value}: {fault}");
        }
    }
    let sum = Field::MolefracSum;
    for value in [sum.interval()[0].next_down(), sum.interval()[1].next_up()] {
        assert_eq!(changed(sum, value).field_at_fault().unwrap().field, sum);
    }
}

#[test]
fn on_each_limit_no_field_is_at_fault() {
    for field in FIELDS {
        for value in field.interval() {
            let inside = changed(field, value);
            assert_eq!(inside.field_at_fault(), None, "{field} {value}");
            let refusal = energies(&inside).err();
            assert!(!matches!(refusal, Some(Refusal::Substances | Refusal::State)), "{field}");
        }
    }
}

#[test]
fn under_bh_an_att_other_than_six_is_named_between_substances_and_state() {
    for value in [5.0, 6.0_f64.next_down(), 6.0_f64.next_up(), 7.0] {
        let wca = changed(Field::Att(2), value);
        assert!(energies(&wca).is_ok());
        let bh = under_bh(&wca, 6.0);
        assert_eq!(energies(&bh), Err(Refusal::Attraction));
        let fault = bh.field_at_fault().unwrap().to_string();
        assert_eq!(fault, format!("att of substance 3 is {value}, and must be 6 under BH"));
    }
    let beside = |field, value| {
        let bh = under_bh(&changed(field, value), 5.5);
        (bh.field_at_fault().unwrap().field, energies(&bh).unwrap_err())
    };
    assert_eq!(beside(Field::Sigma(2), 0.1), (Field::Sigma(2), Refusal::Substances));
    assert_eq!(beside(Field::Temperature, 0.1), (Field::Att(0), Refusal::Attraction));
    assert!(energies(&under_bh(&changed(Field::Att(2), 6.0), 6.0)).is_ok());
}

#[test]
fn minus_zero_counts_as_zero() {
    for field in [Field::PartialDensity(2), Field::Lij(1, 2)] {
        assert_eq!(changed(field, -0.0).field_at_fault(), None);
        assert!(energies(&changed(field, -0.0)).is_ok());
    }
}

#[test]
fn every_k_ij_comes_before_the_l_ij() {
    let mixture = Mixture::new(vec![argon(); 3]).unwrap();
    let state = State::with_density(293.15, 0.005, vec![0.5, 0.25, 0.25]);
    let at_fault = |mixture: &Mixture| {
        let case =
            Case::new(Perturbation::WeeksChandlerAndersen, mixture.clone(), state.clone()).unwrap();
        case.field_at_fault().unwrap().to_string()
    };
    let mixture = mixture.with_l_ij(0, 1, 0.6);
    let message = "l_ij of substances 1 and 2 is 0.6, and must be from -0.5 to 0.5";
    assert_eq!(at_fault(&mixture), message);
    let message = "k_ij of substances 2 and 3 is 1, and must be from -0.9 to 0.9";
    assert_eq!(at_fault(&mixture.with_k_ij(1, 2, 1.0)), message);
}

#[test]
fn a_run_has_the_results_of_the_single_calls() {
    let density = |i: usize| changed(Field::PartialDensity(2), i as f64 * 0.001 - 0.1);
    let cases: Vec<Case> = (0..3000).map(density).collect();
    let results = run_energies(&cases);
    assert_eq!(results.len(), cases.len());
    for (case, result) in cases.iter().zip(&results) {
        assert_eq!(*result, energies(case));
    }
    assert_eq!(results[0], Err(Refusal::State));
    assert!(run_energies(&[]).is_empty());
}
