//! The record layer and the single call: lengths, the order of the checks, what is written.

use oracle::answer::{answer_ends, answer_energies};
use oracle::over_doubles::combined;
use oracle::record::{Case, code, framed, length, read};

fn argon(perturbation: u8, n: usize) -> Case {
    Case {
        perturbation,
        substances: vec![[12.26, 6.0, 3.41, 118.0]; n],
        k_ij: vec![0.0; n * (n - 1) / 2],
        l_ij: None,
        temperature: 310.0,
        partial_density: vec![0.001; n],
        molefracs: vec![1.0 / n as f64; n],
    }
}

/// Version 2, with the same l_ij of each pair.
fn with_l_ij(n: usize, l_ij: f64) -> Case {
    Case { l_ij: Some(vec![l_ij; n * (n - 1) / 2]), ..argon(1, n) }
}

/// The code of the energies call, also read from the answer, whose rest must be untouched.
fn energies_code(record: &[u8]) -> u8 {
    let mut buffer = [0xAA; 60];
    let code = answer_energies(record, &mut buffer);
    let written = if code == 0 { 28 } else { 4 };
    assert_eq!(buffer[..4], [0, written as u8 - 2, 1, code]);
    assert!(buffer[written..].iter().all(|&byte| byte == 0xAA));
    code
}

fn changed(change: impl Fn(&mut Case)) -> u8 {
    let mut case = argon(1, 2);
    change(&mut case);
    energies_code(&case.record())
}

#[test]
fn lengths() {
    let lengths = [1, 2, 8].map(|n| length(&argon(0, n).record()));
    assert_eq!(lengths, [59, 115, 619]);
    let lengths = [1, 2, 8].map(|n| length(&with_l_ij(n, 0.0).record()));
    assert_eq!(lengths, [59, 123, 843]);
}

#[test]
fn a_record_is_read_as_written() {
    let mut case = argon(2, 4);
    case.k_ij = vec![0.1, 0.2, 0.3, 0.4, 0.5, 0.6];
    assert_eq!(read(&case.record()), Ok(case.clone()));
    let row_by_row = [(0, 1), (0, 2), (0, 3), (1, 2), (1, 3), (2, 3)];
    for ((i, j), k) in row_by_row.into_iter().zip(&case.k_ij) {
        assert_eq!((case.k_ij(i, j), case.k_ij(j, i)), (*k, *k));
        assert_eq!((case.l_ij(i, j), case.l_ij(j, i)), (0.0, 0.0));
    }
    case.l_ij = Some(vec![-0.1, -0.2, -0.3, -0.4, -0.5, 0.5]);
    assert_eq!(read(&case.record()), Ok(case.clone()));
    for ((i, j), l) in row_by_row.into_iter().zip(case.l_ij.iter().flatten()) {
        assert_eq!((case.l_ij(i, j), case.l_ij(j, i)), (*l, *l));
    }
}

#[test]
fn l_ij_stand_directly_behind_k_ij() {
    let case = Case { l_ij: Some(vec![0.25]), ..argon(1, 2) };
    let (first, second) = (argon(1, 2).record(), case.record());
    assert_eq!((first[2], second[2]), (1, 2));
    let behind = 5 + 8 * 9;
    assert_eq!(second[behind..behind + 8], 0.25_f64.to_be_bytes());
    assert_eq!([&first[3..behind], &first[behind..]], [&second[3..behind], &second[behind + 8..]]);
}

#[test]
fn combining() {
    let case = Case {
        substances: vec![[9.0, 6.0, 3.0, 100.0], [16.0, 6.0, 4.0, 400.0]],
        k_ij: vec![0.25],
        ..argon(1, 2)
    };
    let p = combined(&case);
    for pair in [(0, 1), (1, 0)] {
        let values = [p.rep_ij[pair], p.att_ij[pair], p.sigma_ij[pair], p.eps_k_ij[pair]];
        assert_eq!(values.map(|v| v.value()), [12.0, 6.0, 3.5, 150.0]);
    }
}

#[test]
fn bh_coefficients_are_worked_for_bh_only() {
    let worked = [0, 1, 2].map(|perturbation| combined(&argon(perturbation, 3)).cd_bh_pure.len());
    assert_eq!(worked, [3, 0, 0]);
}

#[test]
fn envelope_to_size() {
    let whole = argon(0, 1).record();
    let with = |at: usize, byte: u8| {
        let mut record = whole.clone();
        record[at] = byte;
        energies_code(&record)
    };
    assert_eq!(energies_code(&whole), 0);
    for record in
        [&[][..], &[0, 2, 1, 0], &[0, 4, 1, 0, 1], &whole[..60], &[&whole[..], &[0]].concat()]
    {
        assert_eq!(energies_code(record), code::ENVELOPE);
    }
    for version in [0, 3, 255] {
        assert_eq!(energies_code(&[0, 3, version, 3, 9]), code::VERSION);
    }
    for version in [1, 2] {
        assert_eq!(energies_code(&[0, 3, version, 3, 9]), code::PERTURBATION);
        assert_eq!(energies_code(&[0, 3, version, 2, 9]), code::COMPONENTS);
        assert_eq!(energies_code(&[0, 3, version, 2, 8]), code::SIZE);
    }
    assert_eq!([with(2, 0), with(3, 3), with(4, 0), with(4, 2)], [3, 4, 5, 6]);
    // One component has no pair, and so the same size in both versions.
    assert_eq!([with(2, 2), with(2, 3)], [0, 3]);
}

#[test]
fn the_size_is_that_of_the_version() {
    for n in 2..=8 {
        let (mut first, mut second) = (argon(1, n).record(), with_l_ij(n, 0.0).record());
        assert_eq!([energies_code(&first), energies_code(&second)], [0, 0]);
        (first[2], second[2]) = (2, 1);
        assert_eq!([energies_code(&first), energies_code(&second)], [code::SIZE; 2]);
    }
}

#[test]
fn l_ij_lies_in_its_interval() {
    for l_ij in [-0.5, 0.5, 0.0, -0.0, 0.02] {
        assert_eq!(energies_code(&with_l_ij(3, l_ij).record()), 0);
    }
    for l_ij in [(-0.5_f64).next_down(), 0.5_f64.next_up(), f64::NAN, f64::INFINITY] {
        let mut case = with_l_ij(3, 0.0);
        case.l_ij = Some(vec![0.0, 0.0, l_ij]);
        assert_eq!(energies_code(&case.record()), code::SUBSTANCES);
        (case.perturbation, case.substances[1][1]) = (0, 5.5);
        assert_eq!(energies_code(&case.record()), code::SUBSTANCES);
    }
}

#[test]
fn substances_before_state() {
    assert_eq!(changed(|case| case.temperature = f64::NAN), code::STATE);
    assert_eq!(changed(|case| case.k_ij[0] = 0.9_f64.next_up()), code::SUBSTANCES);
    let both = |case: &mut Case| (case.temperature, case.substances[1][3]) = (0.5, 0.05);
    assert_eq!(changed(both), code::SUBSTANCES);
}

type Change = fn(&mut Case);

#[test]
fn attraction_six_for_bh_between_substances_and_state() {
    let code = |perturbation, at: usize, att: f64, change: Change| {
        let mut case = argon(perturbation, 2);
        case.substances[at][1] = att;
        change(&mut case);
        energies_code(&case.record())
    };
    let (none, state): (Change, Change) = (|_| (), |case| case.temperature = 0.5);
    for (at, att) in [(0, 6.0_f64.next_down()), (1, 6.0_f64.next_up()), (1, 5.0), (0, 7.0)] {
        assert_eq!([0, 1, 2].map(|p| code(p, at, att, none)), [code::ATTRACTION, 0, 0]);
        assert_eq!(code(0, at, att, state), code::ATTRACTION);
        assert_eq!(code(1, at, att, state), code::STATE);
        assert_eq!(code(0, at, att, |case| case.k_ij[0] = 1.0), code::SUBSTANCES);
    }
    assert_eq!(code(0, 1, 6.0, none), 0);
    assert_eq!(code(0, 1, f64::NAN, none), code::SUBSTANCES);
    let absent = |case: &mut Case| {
        (case.molefracs, case.partial_density) = (vec![1.0, 0.0], vec![0.001, 0.0]);
    };
    assert_eq!(code(0, 1, 5.5, absent), code::ATTRACTION);
}

#[test]
fn fractions_sum_to_one_within_limits() {
    let tolerance = 2f64.powi(-40);
    let sum = |sum: f64| changed(|case| case.molefracs = vec![0.5, sum - 0.5]);
    assert_eq!([sum(1.0 - tolerance), sum(1.0 + tolerance)], [0, 0]);
    assert_eq!(sum((1.0 - tolerance).next_down()), code::STATE);
    assert_eq!(sum((1.0 + tolerance).next_up()), code::STATE);
}

#[test]
fn arithmetic_before_ends() {
    let mut buffer = [0; 52];
    let mut call = |case: Case| answer_ends(&case.record(), &mut buffer);
    let substance = |rep| vec![[rep, 6.0, 3.41, 118.0]];
    assert_eq!(call(argon(1, 1)), 0);
    assert_eq!(call(Case { partial_density: vec![2.0], ..argon(1, 1) }), code::ARITHMETIC);
    // 12-6 has ends under BH only, 9-6 under none of the three.
    let twelve = [0, 1, 2].map(|p| call(Case { substances: substance(12.0), ..argon(p, 1) }));
    assert_eq!(twelve, [0, code::ENDS, code::ENDS]);
    let nine = [0, 1, 2].map(|p| call(Case { substances: substance(9.0), ..argon(p, 1) }));
    assert_eq!(nine, [code::ENDS; 3]);
}

#[test]
fn short_answer_buffers_are_left_alone() {
    let record = argon(0, 1).record();
    let mut buffer = [0xAA; 52];
    assert_eq!(answer_energies(&record, &mut buffer[..27]), code::ANSWER_BUFFER);
    assert_eq!(answer_ends(&record, &mut buffer[..51]), code::ANSWER_BUFFER);
    assert_eq!(answer_energies(&[], &mut []), code::ANSWER_BUFFER);
    assert_eq!(buffer, [0xAA; 52]);
    assert_eq!(answer_energies(&record, &mut buffer[..28]), 0);
    assert_eq!(answer_ends(&record, &mut buffer), 0);
    assert_eq!(buffer[..4], [0, 50, 1, 0]);
}

#[test]
fn zero_densities() {
    for perturbation in [0, 1, 2] {
        let mut case = argon(perturbation, 3);
        case.partial_density = vec![0.0, -0.0, 0.0];
        let mut buffer = [0xAA; 28];
        assert_eq!(answer_energies(&case.record(), &mut buffer), 0);
        let zero = |bytes: &[u8]| bytes == [0; 8] || bytes == (-0.0_f64).to_be_bytes();
        assert!(buffer[4..].chunks(8).all(zero));
    }
}

#[test]
fn framing() {
    assert_eq!(framed(&[1, 0, 0]), [0, 3, 1, 0, 0]);
}
