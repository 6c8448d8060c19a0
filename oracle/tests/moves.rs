//! The moves between versions 1 and 2: the moved bytes, the order of the codes, what is written.

use oracle::moves::{to_version_1, to_version_2};
use oracle::random::Random;
use oracle::record::{Case, code, pairs, read, split};
use oracle::{generator, stored};

fn case(n: usize, l_ij: Option<Vec<f64>>) -> Case {
    Case {
        perturbation: 1,
        substances: vec![[12.26, 6.0, 3.41, 118.0]; n],
        k_ij: (0..pairs(n)).map(|pair| 0.01 * pair as f64).collect(),
        l_ij,
        temperature: 310.0,
        partial_density: vec![0.001; n],
        molefracs: vec![1.0 / n as f64; n],
    }
}

fn first(n: usize) -> Vec<u8> {
    case(n, None).record()
}

fn second(n: usize, l_ij: f64) -> Vec<u8> {
    case(n, Some(vec![l_ij; pairs(n)])).record()
}

type Move = fn(&[u8], &mut [u8]) -> u8;

/// The code and what is written into a buffer of this size, whose other bytes must be untouched.
fn moved_into(call: Move, record: &[u8], room: usize) -> (u8, Vec<u8>) {
    let mut buffer = vec![0xAA; room];
    let code = call(record, &mut buffer);
    let size = if code == 0 { 2 + oracle::record::length(&buffer) } else { 0 };
    assert!(buffer[size..].iter().all(|&byte| byte == 0xAA), "code {code}");
    (code, buffer[..size].to_vec())
}

fn moved(call: Move, record: &[u8]) -> (u8, Vec<u8>) {
    moved_into(call, record, 900)
}

#[test]
fn zeros_come_behind_the_k_ij_and_go_again() {
    for n in 1..=8 {
        assert_eq!(moved(to_version_2, &first(n)), (0, second(n, 0.0)));
        assert_eq!(moved(to_version_1, &second(n, 0.0)), (0, first(n)));
    }
    let (first, second) = (first(1), second(1, 0.0));
    assert_eq!((first[2], second[2]), (1, 2));
    assert_eq!([&first[..2], &first[3..]].concat(), [&second[..2], &second[3..]].concat());
}

#[test]
fn there_and_back_gives_the_same_bytes() {
    let mut random = Random::new(6);
    let generated = generator::KINDS.iter().cycle().take(800).map(|(_, kind)| kind(&mut random));
    let stored = stored::records();
    let mut moves = [0; 2];
    for record in generated.chain(split(&stored).map(<[u8]>::to_vec)) {
        let Ok(case) = read(&record) else {
            assert!([to_version_1, to_version_2].iter().all(|call| moved(*call, &record).0 != 0));
            continue;
        };
        let zeros = case.l_ij.iter().flatten().all(|l_ij| l_ij.to_bits() == 0);
        let [there, back]: [Move; 2] = match case.version() {
            1 => [to_version_2, to_version_1],
            _ => [to_version_1, to_version_2],
        };
        let (code, other) = moved(there, &record);
        assert_eq!(code, if zeros { 0 } else { code::PAIR_CONSTANT });
        assert_eq!(moved(back, &record).0, code::VERSION);
        if zeros {
            assert_eq!(moved(back, &other), (0, record));
            moves[usize::from(case.version()) - 1] += 1;
        }
    }
    assert!(moves[0] > 300 && moves[1] > 50, "{moves:?}");
}

#[test]
fn only_plus_zero_goes_back() {
    for l_ij in [-0.0, 0.1, -0.5, f64::from_bits(1)] {
        assert_eq!(moved(to_version_1, &second(2, l_ij)).0, code::PAIR_CONSTANT);
    }
    let last = case(3, Some(vec![0.0, 0.0, -0.0])).record();
    assert_eq!(moved(to_version_1, &last).0, code::PAIR_CONSTANT);
    // Without a pair there is none that is not.
    assert_eq!(moved(to_version_1, &second(1, -0.0)), (0, first(1)));
}

#[test]
fn buffers_up_to_the_moved_record() {
    for (call, record, size) in [
        (to_version_2 as Move, first(1), 61),
        (to_version_2, first(2), 125),
        (to_version_2, first(8), 845),
        (to_version_1, second(2, 0.0), 117),
        (to_version_1, second(8, 0.0), 621),
    ] {
        for room in [0, 1, 4, size - 1] {
            assert_eq!(moved_into(call, &record, room).0, code::ANSWER_BUFFER);
        }
        for room in [size, size + 1, size + 60] {
            let (code, moved) = moved_into(call, &record, room);
            assert_eq!((code, moved.len()), (0, size));
        }
    }
}

/// Changes a case of two components of one version, and says what its move into a buffer gives.
fn changed(version: u8, room: usize, change: impl Fn(&mut Case)) -> u8 {
    let mut case = case(2, (version == 2).then(|| vec![0.0]));
    change(&mut case);
    let call = if version == 1 { to_version_2 } else { to_version_1 };
    moved_into(call, &case.record(), room).0
}

#[test]
fn codes_in_their_order() {
    for (call, version, other) in [(to_version_2 as Move, 1, 2), (to_version_1, 2, 1)] {
        let code = |record: &[u8]| moved_into(call, record, 0).0;
        for record in [&[][..], &[0, 2, 1, 0], &[0, 4, 1, 0, 1]] {
            assert_eq!(code(record), code::ENVELOPE);
        }
        for version in [0, other, 3, 255] {
            assert_eq!(code(&[0, 3, version, 3, 9]), code::VERSION);
        }
        assert_eq!(code(&[0, 3, version, 3, 9]), code::PERTURBATION);
        assert_eq!(code(&[0, 3, version, 2, 9]), code::COMPONENTS);
        assert_eq!(code(&[0, 3, version, 2, 8]), code::SIZE);
    }
    // A body of the other version.
    for (call, version, mut record) in
        [(to_version_2 as Move, 1, second(2, 0.0)), (to_version_1, 2, first(2))]
    {
        record[2] = version;
        assert_eq!(moved_into(call, &record, 0).0, code::SIZE);
    }
}

#[test]
fn codes_behind_the_buffer() {
    for version in [1, 2] {
        let substances = |case: &mut Case| case.k_ij[0] = 1.0;
        let attraction = |case: &mut Case| {
            (case.perturbation, case.substances[1][1]) = (0, 5.5);
        };
        let state = |case: &mut Case| case.temperature = 0.5;
        let all = |case: &mut Case| {
            attraction(case);
            state(case);
        };
        assert_eq!(changed(version, 900, substances), code::SUBSTANCES);
        assert_eq!(changed(version, 900, attraction), code::ATTRACTION);
        assert_eq!(changed(version, 900, all), code::ATTRACTION);
        assert_eq!(changed(version, 900, state), code::STATE);
        assert_eq!(changed(version, 116, substances), code::ANSWER_BUFFER);
    }
    let l_ij = |l_ij: f64| move |case: &mut Case| case.l_ij = Some(vec![l_ij]);
    assert_eq!(changed(2, 900, l_ij(0.6)), code::SUBSTANCES);
    assert_eq!(changed(2, 900, l_ij(0.1)), code::PAIR_CONSTANT);
    assert_eq!(changed(2, 116, l_ij(0.1)), code::ANSWER_BUFFER);
    let both = |case: &mut Case| (case.l_ij, case.temperature) = (Some(vec![0.1]), 0.5);
    assert_eq!(changed(2, 900, both), code::STATE);
}

/// A move works no energies: a record without a rule moves too.
#[test]
fn arithmetic_is_not_asked() {
    let dense = Case { partial_density: vec![2.0], ..case(1, None) };
    assert_eq!(oracle::answer::energies(&dense), Err(code::ARITHMETIC));
    assert_eq!(moved(to_version_2, &dense.record()).0, 0);
}
