//! Values of feos's own tests of uv-theory. `docs/src` carries no test modules, so they are quoted
//! from memory; they are evidence because their digits are met. feos worked them with the library's
//! functions, so the agreement also bears on the stand-ins.

use oracle::answer::energies;
use oracle::record::Case;

const SIGMA: f64 = 3.7039;
const EPSILON_K: f64 = 150.03;

/// The residual Helmholtz energy per molecule, divided by kT, at a total density.
fn helmholtz_energy(
    perturbation: u8,
    components: &[([f64; 4], f64)],
    temperature: f64,
    density: f64,
) -> f64 {
    let n = components.len();
    let molefracs: Vec<f64> = components.iter().map(|(_, x)| *x).collect();
    let case = Case {
        perturbation,
        substances: components.iter().map(|(substance, _)| *substance).collect(),
        k_ij: vec![0.0; n * (n - 1) / 2],
        l_ij: None,
        temperature,
        partial_density: molefracs.iter().map(|x| x * density).collect(),
        molefracs,
    };
    energies(&case).expect("energies").iter().sum::<f64>() / density
}

fn assert_near(value: f64, expected: f64, tolerance: f64) {
    assert!(((value - expected) / expected).abs() < tolerance, "{value} is not {expected}");
}

#[test]
fn pure() {
    let (t, sigma3) = (4.0 * EPSILON_K, SIGMA * SIGMA * SIGMA);
    let substance = |rep| ([rep, 6.0, SIGMA, EPSILON_K], 1.0);
    let bh = helmholtz_energy(0, &[substance(24.0)], t, 1.0 / sigma3);
    assert_near(bh, 2.993577305779432, 1e-13);
    let wca = helmholtz_energy(1, &[substance(24.0)], t, 1.0 / sigma3);
    assert_near(wca, 2.972986567516, 1e-12);
    let b3 = helmholtz_energy(2, &[substance(12.0)], t, 0.5 / sigma3);
    assert_near(b3, 0.37659379124271003, 1e-13);
}

#[test]
fn a_mixture_of_equal_substances_is_the_pure_one() {
    let substance = [24.0, 6.0, SIGMA, EPSILON_K];
    let density = 1.0 / (SIGMA * SIGMA * SIGMA);
    let bh = helmholtz_energy(0, &[(substance, 0.85), (substance, 0.15)], 4.0 * EPSILON_K, density);
    assert_near(bh, 2.993577305779432, 1e-13);
}

#[test]
fn mixtures() {
    let components = [([12.0, 6.0, 1.0, 1.0], 0.4), ([12.0, 6.0, 1.0, 0.5], 0.6)];
    assert_near(helmholtz_energy(1, &components, 1.0, 0.9), -0.597791038364405, 1e-5);
    let components = [([12.0, 6.0, 1.0, 1.0], 0.4), ([12.0, 6.0, 2.0, 0.5], 0.6)];
    let density = 0.52 / (0.4 + 0.6 * 8.0);
    assert_near(helmholtz_energy(1, &components, 1.5, density), -0.034206207363139396, 1e-12);
}
