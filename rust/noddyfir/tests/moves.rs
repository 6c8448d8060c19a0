//! The moves between versions 1 and 2, and the version that a case is written in.

use noddyfir::bytes::{self, RECORD_SIZE_MAX};
use noddyfir::{
    Case, Mixture, Perturbation, Refusal, State, Substance, ends, energies, slopes, to_version_1,
    to_version_2,
};

const STORED: &[u8] = include_bytes!("../../../crates/energies/stdin");

/// The stored records.
fn stored() -> Vec<&'static [u8]> {
    let (mut records, mut rest) = (Vec::new(), STORED);
    while !rest.is_empty() {
        let size = 2 + usize::from(u16::from_be_bytes([rest[0], rest[1]]));
        records.push(&rest[..size]);
        rest = &rest[size..];
    }
    records
}

/// The code and the answer of each call.
fn answers(record: &[u8]) -> [(u8, [u8; bytes::ENDS_SIZE]); 3] {
    [bytes::energies, bytes::ends, bytes::slopes].map(|call| {
        let mut answer = [0; bytes::ENDS_SIZE];
        (call(record, &mut answer).unwrap(), answer)
    })
}

/// n substances that differ, with the l_ij of the first two and of the last two.
fn case(n: usize, l_ij: [f64; 2]) -> Case {
    let substance = |i: usize| Substance::new(12.26, 6.0, 3.0 + 0.125 * i as f64, 117.84);
    let mut mixture = Mixture::new((0..n).map(substance).collect()).unwrap();
    if n > 1 {
        mixture = mixture.with_l_ij(0, 1, l_ij[0]).with_l_ij(n - 1, n - 2, l_ij[1]);
    }
    let state = State::with_density(293.15, 0.005, vec![1.0 / n as f64; n]);
    Case::new(Perturbation::WeeksChandlerAndersen, mixture, state).unwrap()
}

#[test]
fn stored_records_move_there_and_back_with_the_same_answers() {
    let mut moved = 0;
    for record in stored() {
        let answers_before = answers(record);
        let passes = matches!(answers_before[0].0, 0 | 9);
        match to_version_2(record) {
            Ok(second) => {
                assert!(passes);
                assert_eq!(answers(&second), answers_before);
                assert_eq!(to_version_1(&second).unwrap(), record);
                moved += 1;
            }
            Err(Refusal::Version) if passes => assert_eq!(record[2], 2),
            Err(refusal) => assert!(!passes, "{refusal}"),
        }
    }
    assert!(moved > 100, "{moved}");
}

#[test]
fn a_refused_move_has_the_code_of_the_energies() {
    for record in stored().into_iter().filter(|record| record.get(2) == Some(&1)) {
        let code = answers(record)[0].0;
        let refusal = to_version_2(record).err().and_then(Refusal::code);
        assert_eq!(refusal.unwrap_or(0), if code == 9 { 0 } else { code });
    }
}

#[test]
fn a_case_is_of_version_1_where_every_l_ij_is_plus_zero() {
    for (n, first, second) in [(2, 117, 125), (3, 181, 205), (8, 621, 845)] {
        let zeros = case(n, [0.0; 2]).record();
        assert_eq!((zeros.len(), zeros[2]), (first, 1));
        for l_ij in [[0.1, 0.0], [0.0, -0.02], [-0.0, 0.0], [0.0, f64::NAN]] {
            // Two substances have one pair, which is given the second.
            if n > 2 || l_ij[1].to_bits() != 0 {
                let record = case(n, l_ij).record();
                assert_eq!((record.len(), record[2]), (second, 2), "{l_ij:?}");
            }
        }
        assert_eq!(to_version_2(&zeros).unwrap().len(), second);
    }
    assert_eq!(case(1, [0.0; 2]).record()[2], 1);
    assert_eq!(case(8, [0.1, 0.1]).record().len(), RECORD_SIZE_MAX);
}

#[test]
fn l_ij_stand_behind_the_k_ij_row_by_row() {
    let case = case(3, [0.25, -0.5]);
    let l_ij = 5 + 8 * 15;
    let expected = [0.25_f64, 0.0, -0.5].map(f64::to_be_bytes).concat();
    assert_eq!(case.record()[l_ij..l_ij + 24], expected);
    let mixture = case.mixture();
    assert_eq!([mixture.l_ij(1, 0), mixture.l_ij(0, 2), mixture.l_ij(1, 2)], [0.25, 0.0, -0.5]);
}

#[test]
fn minus_zero_has_the_answers_of_zero_and_does_not_move_back() {
    let [zero, minus_zero, other] = [0.0, -0.0, 0.02].map(|l_ij| case(3, [l_ij, 0.0]));
    assert_eq!(energies(&minus_zero), energies(&zero));
    assert_eq!(ends(&minus_zero), ends(&zero));
    assert_eq!(slopes(&minus_zero), slopes(&zero));
    assert_ne!(energies(&other), energies(&zero));
    assert!(energies(&other).is_ok() && ends(&other).is_ok() && slopes(&other).is_ok());
    for case in [minus_zero, other] {
        assert_eq!(to_version_1(&case.record()), Err(Refusal::PairConstant));
    }
}

#[test]
fn buffers_and_what_lies_past_them() {
    let first = case(2, [0.0; 2]).record();
    let second = to_version_2(&first).unwrap();
    let mut out = [7; RECORD_SIZE_MAX];
    assert_eq!(bytes::to_version_2(&first, &mut out[..124]), Ok(1));
    assert_eq!(bytes::to_version_1(&second, &mut out[..116]), Ok(1));
    assert_eq!(bytes::to_version_1(&first, &mut out), Ok(3));
    assert_eq!(out, [7; RECORD_SIZE_MAX]);
    assert_eq!(bytes::to_version_2(&first, &mut out[..125]), Ok(0));
    assert_eq!((&out[..125], &out[125..]), (&second[..], &[7; RECORD_SIZE_MAX - 125][..]));
    assert_eq!(bytes::to_version_1(&second, &mut out), Ok(0));
    assert_eq!((&out[..117], &out[117..125]), (&first[..], &second[117..]));
}
