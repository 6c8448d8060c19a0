//! The sample: argon and methane by Mie potentials, and the same two as 12-6.

use crate::random::Random;
use crate::record::Case;

/// sigma in ångström and epsilon_k in kelvin, of argon and of methane.
const SIZES: [[f64; 2]; 2] = [[3.404, 117.84], [3.7412, 153.36]];
/// att of all.
const ATT: f64 = 6.0;

/// The two exponents rep, with the name of their row.
pub const POTENTIALS: [(&str, [f64; 2]); 2] = [("12.26-6, 12.65-6", [12.26, 12.65]), TWELVE];
const TWELVE: (&str, [f64; 2]) = ("12-6, 12-6", [12.0, 12.0]);

const K_IJ: [f64; 2] = [0.0, 0.01];

/// Where a drawn temperature lies.
const TEMPERATURE: [f64; 2] = [100.0, 500.0];
/// Where a drawn density lies: each of the three as often as another.
const DECADES: [[f64; 2]; 3] = [[1e-4, 1e-3], [1e-3, 1e-2], [1e-2, 0.02]];

/// The grid of round values has 100, 110, .. 500 K, these densities and the fractions 0, 0.1, .. 1.
const TENS: std::ops::RangeInclusive<u32> = 10..=50;
const DENSITIES: [f64; 9] = [1e-4, 2e-4, 5e-4, 1e-3, 2e-3, 5e-3, 0.01, 0.015, 0.02];
const TENTHS: std::ops::RangeInclusive<u32> = 0..=10;

struct State {
    temperature: f64,
    density: f64,
    argon: f64,
    k_ij: f64,
}

/// So many drawn records for each pair of potentials and each perturbation.
pub fn drawn(count: usize) -> Vec<u8> {
    let mut random = Random::new(1);
    let states = std::iter::repeat_with(|| drawn_state(&mut random)).take(count);
    records(&states.collect::<Vec<_>>())
}

fn drawn_state(random: &mut Random) -> State {
    let temperature = random.between(TEMPERATURE);
    let decade = random.pick(&DECADES);
    let (density, argon) = (random.between(decade), random.unit());
    State { temperature, density, argon, k_ij: random.pick(&K_IJ) }
}

/// The grid, for each pair of potentials and each perturbation.
pub fn grid() -> Vec<u8> {
    let mut states = Vec::new();
    for (ten, tenth) in TENS.flat_map(|ten| TENTHS.map(move |tenth| (ten, tenth))) {
        let (temperature, argon) = (10.0 * ten as f64, tenth as f64 / 10.0);
        for (density, k_ij) in DENSITIES.iter().flat_map(|density| K_IJ.map(|k| (*density, k))) {
            states.push(State { temperature, density, argon, k_ij });
        }
    }
    records(&states)
}

/// All records have the same size.
fn records(states: &[State]) -> Vec<u8> {
    let mut bytes = Vec::new();
    for (_, rep) in POTENTIALS {
        for perturbation in 0..3 {
            bytes.extend(states.iter().flat_map(|state| case(rep, perturbation, state).record()));
        }
    }
    bytes
}

fn case(rep: [f64; 2], perturbation: u8, state: &State) -> Case {
    let substance = |k: usize| [rep[k], ATT, SIZES[k][0], SIZES[k][1]];
    let molefracs = vec![state.argon, 1.0 - state.argon];
    Case {
        perturbation,
        substances: vec![substance(0), substance(1)],
        k_ij: vec![state.k_ij],
        l_ij: None,
        temperature: state.temperature,
        partial_density: molefracs.iter().map(|x| x * state.density).collect(),
        molefracs,
    }
}

/// The name of the row to which a case belongs.
pub fn potentials(case: &Case) -> Option<&'static str> {
    let rep: Vec<f64> = case.substances.iter().map(|substance| substance[0]).collect();
    POTENTIALS.iter().find(|(_, known)| *known == rep[..]).map(|(name, _)| *name)
}
