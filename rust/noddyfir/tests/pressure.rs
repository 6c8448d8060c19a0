//! The pressure against differences of the energies, against the gas constant, and against the virial expansion.

use noddyfir::{Case, Mixture, Perturbation, State, Substance, energies, pressure};
use std::f64::consts::PI;

/// Boltzmann's constant times 1 K per cubic ångström, in bar.
const BAR: f64 = 1.380649e-23 * 1e30 / 1e5;

const ARGON: [f64; 4] = [12.26, 6.0, 3.404, 117.84];
const METHANE: [f64; 4] = [12.65, 6.0, 3.7412, 153.36];

fn substance([rep, att, sigma, epsilon_k]: [f64; 4]) -> Substance {
    Substance::new(rep, att, sigma, epsilon_k)
}

fn mixed(perturbation: Perturbation, temperature: f64, density: f64) -> Case {
    let mixture = Mixture::binary(substance(ARGON), substance(METHANE), 0.01);
    let state = State::with_density(temperature, density, vec![0.8, 0.2]);
    Case::new(perturbation, mixture, state).unwrap()
}

/// The sum of the energies.
fn energy(case: &Case) -> f64 {
    energies(case).unwrap().named().iter().map(|(_, value)| value).sum()
}

/// kT × (density × slope − value) with the slope as a quotient of differences: nothing here comes from the slopes call.
#[test]
fn it_agrees_with_differences_of_the_energies() {
    for perturbation in Perturbation::ALL {
        for temperature in [150.3, 293.15, 412.7] {
            for density in [1e-4, 0.001, 0.005, 0.01, 0.02] {
                let at =
                    |i: f64| energy(&mixed(perturbation, temperature, density * (1.0 + i * 1e-3)));
                let near = 8.0 * (at(1.0) - at(-1.0)) - (at(2.0) - at(-2.0));
                let slope = near / (12.0 * 1e-3 * density);
                let expected = BAR * temperature * (density + density * slope - at(0.0));
                let found = pressure(&mixed(perturbation, temperature, density)).unwrap();
                let apart = (found.total() - expected).abs() / found.ideal;
                assert!(apart < 1e-10, "{perturbation} {temperature} {density}: {apart:e}");
            }
        }
    }
}

/// One mole per litre of an ideal gas at 0 degrees Celsius, by the gas constant and by Avogadro's number.
#[test]
fn the_ideal_part_is_that_of_the_gas_constant() {
    let case = mixed(Perturbation::WeeksChandlerAndersen, 273.15, 0.000602214076);
    let expected = 8.31446261815324 * 273.15 * 1000.0 / 1e5;
    assert!((pressure(&case).unwrap().ideal / expected - 1.0).abs() < 1e-14);
}

#[test]
fn without_a_density_there_is_no_pressure() {
    for perturbation in Perturbation::ALL {
        let none = pressure(&mixed(perturbation, 293.15, 0.0)).unwrap();
        assert_eq!([none.ideal, none.residual, none.total()], [0.0; 3]);
    }
}

/// p / kT is density + B × density² + ..: so the residual part divided by kT × density² and the energy divided by
/// density² have one limit, and come ten times nearer to it where the density is a tenth.
#[test]
fn at_low_density_it_has_one_second_virial_coefficient() {
    for perturbation in Perturbation::ALL {
        let virial = |density: f64| {
            let case = mixed(perturbation, 293.15, density);
            let kt = BAR * 293.15;
            let residual = pressure(&case).unwrap().residual;
            [residual / (kt * density * density), energy(&case) / (density * density)]
        };
        let [limit, by_energy] = virial(1e-20);
        assert!((limit / by_energy - 1.0).abs() < 1e-13, "{perturbation}: {limit} {by_energy}");
        let [apart, apart_at_tenth] =
            [1e-6, 1e-7].map(|density| virial(density).map(|found| (found - limit).abs()));
        for (apart, at_tenth) in apart.iter().zip(apart_at_tenth) {
            assert!(*apart < 1e-4 * limit.abs() && (8.0..13.0).contains(&(apart / at_tenth)));
        }
    }
}

/// The second virial coefficient of a Mie potential: −2π ∫ (exp(−u/kT) − 1) r² dr, by Simpson's rule in x = sigma / r from 0
/// to 3. Beyond, where the exponential is 0, the integral is known.
fn integrated([rep, att, sigma, epsilon_k]: [f64; 4], temperature: f64) -> f64 {
    let prefactor = rep / (rep - att) * (rep / att).powf(att / (rep - att));
    let u = |x: f64| prefactor * epsilon_k / temperature * (x.powf(rep) - x.powf(att));
    let integrand = |x: f64| if x > 0.0 { (-u(x)).exp_m1() / x.powi(4) } else { 0.0 };
    let steps = 3000;
    let width = 3.0 / f64::from(steps);
    let simpson = |i: i32| {
        let [left, right] = [f64::from(i), f64::from(i + 1)].map(|place| place * width);
        let middle = integrand((left + right) / 2.0);
        width / 6.0 * (integrand(left) + 4.0 * middle + integrand(right))
    };
    let within: f64 = (0..steps).map(simpson).sum();
    -2.0 * PI * sigma.powi(3) * (within - 1.0 / 81.0)
}

/// uv-theory is made to have the potential's own coefficient, by formulas that were fitted: so within a hundredth of it
/// and of the spheres'.
#[test]
fn the_second_virial_coefficient_is_that_of_the_potential() {
    for perturbation in Perturbation::ALL {
        for potential in [ARGON, METHANE, [20.0, 6.0, 3.0, 100.0]] {
            for temperature in [150.3, 200.0, 293.15, 500.0, 1000.0] {
                let density = 1e-12;
                let state = State::with_density(temperature, density, vec![1.0]);
                let mixture = Mixture::pure(substance(potential));
                let case = Case::new(perturbation, mixture, state).unwrap();
                let residual = pressure(&case).unwrap().residual;
                let found = residual / (BAR * temperature * density * density);
                let expected = integrated(potential, temperature);
                let spheres = 2.0 / 3.0 * PI * potential[2].powi(3);
                let apart = (found - expected).abs() / (expected.abs() + spheres);
                assert!(apart < 0.01, "{perturbation} {temperature}: {found} and {expected}");
            }
        }
    }
}
