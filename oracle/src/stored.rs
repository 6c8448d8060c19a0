//! A fixed list of records that covers the cases of documents 01 and 02, within the 65,536 bytes of a run.

use crate::record::{Case, framed, interval, pairs};

/// All records one after the other.
pub fn records() -> Vec<u8> {
    let parts = [
        malformed(),
        mixtures(),
        limits(),
        attractions(),
        special_doubles(),
        zeros(),
        without_rule(),
        thresholds(),
        steep(),
        second_constants(),
        versions(),
    ];
    parts.concat().concat()
}

const PERTURBATIONS: [u8; 3] = [0, 1, 2];

/// rep, att, sigma, epsilon_k; none of them meets two cases of a range rule.
const SUBSTANCES: [[f64; 4]; 8] = [
    [12.26, 6.0, 3.41, 118.0],
    [12.65, 6.0, 3.74, 153.0],
    [13.0, 6.0, 3.96, 244.0],
    [11.0, 6.0, 2.8, 34.0],
    [13.5, 6.0, 3.61, 105.0],
    [14.5, 6.1, 3.65, 170.0],
    [20.0, 5.9, 4.5, 300.0],
    [12.7, 6.5, 3.0, 61.5],
];

/// A mixture of the first n substances at a total density per cubic ångström; under BH each att is 6.
fn mixture(perturbation: u8, n: usize, temperature: f64, density: f64) -> Case {
    let molefracs: Vec<f64> = (1..=n).map(|i| (2 * i) as f64 / (n * (n + 1)) as f64).collect();
    let mut substances = SUBSTANCES[..n].to_vec();
    if perturbation == 0 {
        substances.iter_mut().for_each(|s| s[1] = 6.0);
    }
    Case {
        perturbation,
        substances,
        k_ij: (0..pairs(n)).map(|pair| 0.01 * pair as f64 - 0.05).collect(),
        l_ij: None,
        temperature,
        partial_density: molefracs.iter().map(|x| x * density).collect(),
        molefracs,
    }
}

fn pure(perturbation: u8, substance: [f64; 4], temperature: f64, density: f64) -> Case {
    Case { substances: vec![substance], ..mixture(perturbation, 1, temperature, density) }
}

/// Codes 2 to 6, with later faults behind the first.
fn malformed() -> Vec<Vec<u8>> {
    let whole = mixture(0, 1, 300.0, 0.001).record().split_off(2);
    let changed = |at: usize, byte: u8| {
        let mut body = whole.clone();
        body[at] = byte;
        body
    };
    let short: [&[u8]; 7] = [&[], &[1], &[1, 0], &[9, 9], &[1, 0, 0], &[1, 0, 1], &[3, 3, 0]];
    let mut bodies: Vec<Vec<u8>> = short.map(<[u8]>::to_vec).to_vec();
    bodies.extend([0, 3, 255].map(|version| changed(0, version)));
    bodies.extend([3, 16, 255].map(|perturbation| changed(1, perturbation)));
    bodies.extend([0, 2, 8, 9, 255].map(|n| changed(2, n)));
    bodies.push(whole[..whole.len() - 1].to_vec());
    bodies.push(whole[..whole.len() - 8].to_vec());
    bodies.push([&whole[..], &[0]].concat());
    bodies.push([&whole[..], &[0; 8]].concat());
    bodies.push(vec![1, 3, 9]);
    bodies.iter().map(|body| framed(body)).collect()
}

/// Every perturbation with 1 to 8 components, as a gas and as a liquid.
fn mixtures() -> Vec<Vec<u8>> {
    let mut records = Vec::new();
    for perturbation in PERTURBATIONS {
        for n in 1..=8 {
            records.push(mixture(perturbation, n, 350.0, 0.000_25).record());
            records.push(mixture(perturbation, n, 120.0, 0.012).record());
        }
    }
    records
}

/// A field of the two-component mixture with its interval, by its place in the record.
const FIELDS: [(usize, [f64; 2]); 8] = [
    (4, interval::REP),
    (5, interval::ATT),
    (6, interval::SIGMA),
    (7, interval::EPSILON_K),
    (8, interval::K_IJ),
    (9, interval::TEMPERATURE),
    (11, interval::DENSITY),
    (13, interval::FRACTION),
];

/// The two-component mixture with one field changed; the first fraction is what the second leaves.
fn with_field(perturbation: u8, place: usize, value: f64) -> Vec<u8> {
    let mut case = mixture(perturbation, 2, 300.0, 0.002);
    match place {
        4..8 => case.substances[1][place - 4] = value,
        8 => case.k_ij[0] = value,
        9 => case.temperature = value,
        11 => case.partial_density[1] = value,
        _ => case.molefracs = vec![1.0 - value, value],
    }
    case.record()
}

/// The limits of each interval and the doubles beyond them.
fn limits() -> Vec<Vec<u8>> {
    let mut records = Vec::new();
    for perturbation in PERTURBATIONS {
        for (place, [least, greatest]) in FIELDS {
            let values = [least, greatest, least.next_down(), greatest.next_up()];
            records.extend(values.map(|value| with_field(perturbation, place, value)));
        }
        let [least, greatest] = interval::FRACTION_SUM;
        for sum in [least, greatest, least.next_down(), greatest.next_up()] {
            let mut case = mixture(perturbation, 2, 300.0, 0.002);
            case.molefracs = vec![0.5, sum - 0.5];
            records.push(case.record());
        }
    }
    records
}

/// att at 6 and beside it, of the first, the last or an absent component; before it code 7, behind it code 8.
fn attractions() -> Vec<Vec<u8>> {
    let mut records = Vec::new();
    for perturbation in PERTURBATIONS {
        for (att, at) in [(6.0_f64.next_down(), 0), (6.0_f64.next_up(), 2), (5.5, 1), (6.0, 1)] {
            let mut case = mixture(perturbation, 3, 300.0, 0.002);
            case.substances[at][1] = att;
            records.push(case.record());
            case.temperature = 0.5;
            records.push(case.record());
            case.k_ij[2] = 1.0;
            records.push(case.record());
        }
        let mut absent = mixture(perturbation, 2, 300.0, 0.002);
        absent.substances[1][1] = 5.0;
        (absent.molefracs, absent.partial_density) = (vec![1.0, 0.0], vec![0.002, 0.0]);
        records.push(absent.record());
    }
    records
}

fn special_doubles() -> Vec<Vec<u8>> {
    let special = [f64::NAN, f64::INFINITY, f64::NEG_INFINITY, -0.0, f64::from_bits(1)];
    let fields = FIELDS.iter().zip(PERTURBATIONS.iter().cycle());
    fields.flat_map(|(&(place, _), &p)| special.map(|value| with_field(p, place, value))).collect()
}

/// All densities zero, one of them −0; a fraction of zero.
fn zeros() -> Vec<Vec<u8>> {
    let mut records = Vec::new();
    for perturbation in PERTURBATIONS {
        records.extend([1, 2, 8].map(|n| mixture(perturbation, n, 300.0, 0.0).record()));
        let mut case = mixture(perturbation, 3, 300.0, 0.0);
        case.partial_density[1] = -0.0;
        records.push(case.record());
        let mut case = mixture(perturbation, 3, 300.0, 0.002);
        (case.molefracs, case.partial_density[1]) = (vec![0.75, -0.0, 0.25], 0.0);
        records.push(case.record());
    }
    records
}

/// Code 9: packed beyond `ln_1p`, and colder than exp reaches.
fn without_rule() -> Vec<Vec<u8>> {
    let dense = |p| pure(p, SUBSTANCES[0], 300.0, 0.2).record();
    let cold = |p| pure(p, [12.65, 6.0, 3.74, 5000.0], 1.0, 0.001).record();
    [PERTURBATIONS.map(dense), PERTURBATIONS.map(cold)].concat()
}

/// Reduced temperatures at 175 and 10, 1/t at 700, and ratios of rep to att at which ranges fail.
fn thresholds() -> Vec<Vec<u8>> {
    let mut records = Vec::new();
    for temperature in [1750.0_f64, 100.0] {
        let near = [temperature.next_down(), temperature, temperature.next_up()];
        let far = [temperature - 1.0, temperature + 1.0];
        for t in [&near[..], &far[..]].concat() {
            records.push(pure(2, [12.65, 6.0, 3.0, 10.0], t, 0.01).record());
        }
    }
    for perturbation in PERTURBATIONS {
        for epsilon_k in [700.0_f64, 700.0_f64.next_up(), 699.0, 701.0] {
            records.push(pure(perturbation, [12.65, 6.0, 3.0, epsilon_k], 1.0, 0.01).record());
        }
        for rep in [8.0, 9.0, 12.0, 18.0, 36.0, 48.0] {
            records.push(pure(perturbation, [rep, 6.0, 3.0, 100.0], 210.0, 0.01).record());
        }
        for density in [0.019, 0.0195, 0.02, 0.0205, 0.03, 0.08, 0.085, 0.09] {
            records.push(pure(perturbation, [12.65, 6.0, 3.0, 10.0], 4000.0, density).record());
        }
    }
    records
}

/// Code 11 of slopes: under BH densities whose ln is too steep, and virial coefficients near the
/// greatest doubles; and 9, where a slope fails first and then a value. And small densities that
/// have slopes.
fn steep() -> Vec<Vec<u8>> {
    let mut records = Vec::new();
    let methane = SUBSTANCES[1];
    for perturbation in PERTURBATIONS {
        let smallest = f64::from_bits(1);
        for density in [smallest, f64::MIN_POSITIVE, 2.37e-308, 2.39e-308, 1e-250, 1e-72] {
            records.push(pure(perturbation, methane, 300.0, density).record());
        }
        for density in [0.0, smallest, 0.0002] {
            let large = |epsilon_k| pure(perturbation, [12.65, 6.0, 10.0, epsilon_k], 2.0, density);
            records.extend([1370.0, 1390.0, 1396.0].map(|epsilon_k| large(epsilon_k).record()));
        }
        let mut case = mixture(perturbation, 2, 300.0, 0.0);
        case.partial_density = vec![smallest, 0.0];
        records.push(case.record());
        // Fractions that do not belong to the densities.
        case = mixture(perturbation, 2, 300.0, 0.0);
        (case.partial_density, case.molefracs) = (vec![0.001, 0.002], vec![1.0, -0.0]);
        records.push(case.record());
    }
    records
}

/// A mixture of version 2; `l_ij` has one for each of its pairs.
fn with_l_ij(perturbation: u8, n: usize, l_ij: &[f64]) -> Case {
    Case { l_ij: Some(l_ij.to_vec()), ..mixture(perturbation, n, 300.0, 0.002) }
}

/// l_ij inside, as zeros of both signs, at the limits and beyond them; of one pair among others; code 7
/// before 12.
fn second_constants() -> Vec<Vec<u8>> {
    let mut records = Vec::new();
    let [least, greatest] = interval::L_IJ;
    for perturbation in PERTURBATIONS {
        for n in [1, 3, 8] {
            let l_ij: Vec<f64> = (0..pairs(n)).map(|pair| 0.01 * pair as f64 - 0.1).collect();
            records.push(with_l_ij(perturbation, n, &l_ij).record());
        }
        for l_ij in [0.02, 0.0, -0.0, f64::from_bits(1), least, greatest] {
            records.push(with_l_ij(perturbation, 2, &[l_ij]).record());
        }
        for l_ij in [[0.0, 0.1, -0.0], [-0.0, 0.0, 0.6]] {
            let mut case = with_l_ij(perturbation, 3, &l_ij);
            records.push(case.record());
            case.substances[1][1] = 5.5;
            records.push(case.record());
        }
    }
    let beyond = [least.next_down(), greatest.next_up(), f64::NAN, f64::NEG_INFINITY];
    records.extend(beyond.map(|l_ij| with_l_ij(1, 2, &[l_ij]).record()));
    records
}

/// Codes 3 and 6 of versions and bodies that do not belong together, and what tells that code 3 passed.
fn versions() -> Vec<Vec<u8>> {
    let first = mixture(0, 2, 300.0, 0.002).record().split_off(2);
    let second = with_l_ij(0, 2, &[0.02]).record().split_off(2);
    let mut bodies = Vec::new();
    for body in [&first, &second] {
        bodies.extend([0, 1, 2, 3, 255].map(|version| [&[version], &body[1..]].concat()));
    }
    bodies.push([&second[..], &[0; 8]].concat());
    bodies.push(vec![2, 3, 9]);
    bodies.push(vec![2, 0, 1]);
    bodies.iter().map(|body| framed(body)).collect()
}
