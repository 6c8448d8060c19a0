// The ported text, and the call into it, over the type `Number` that the including module names.

use crate::record::Case;
use crate::shims::feos_core::{StateHD, parameter::Parameters};
use crate::shims::nalgebra::{DMatrix, DVector};
use crate::shims::num_dual::DualNum;
use uvtheory::parameters::{UVTheoryPars, UVTheoryRecord};
use uvtheory::{BarkerHenderson, Perturbation, WeeksChandlerAndersen, WeeksChandlerAndersenB3};

include!(concat!(env!("OUT_DIR"), "/seed/lib.rs"));

/// The named constants of `std::f64::consts` that the text reads.
mod consts {
    use super::Number;
    pub const PI: Number = Number::point(std::f64::consts::PI);
    pub const FRAC_PI_3: Number = Number::point(std::f64::consts::FRAC_PI_3);
    pub const FRAC_PI_6: Number = Number::point(std::f64::consts::FRAC_PI_6);
}

/// The energies divided by kT per cubic ångström: hard sphere, reference, attractive.
pub fn contributions(case: &Case) -> [Number; 3] {
    let p = &combined(case);
    let state = &StateHD {
        temperature: Number::point(case.temperature),
        partial_density: densities(case),
        molefracs: points(&case.molefracs),
    };
    let terms = match p.perturbation {
        Perturbation::BarkerHenderson => {
            BarkerHenderson.residual_helmholtz_energy_contributions(p, state)
        }
        Perturbation::WeeksChandlerAndersen => {
            WeeksChandlerAndersen.residual_helmholtz_energy_contributions(p, state)
        }
        Perturbation::WeeksChandlerAndersenB3 => {
            WeeksChandlerAndersenB3.residual_helmholtz_energy_contributions(p, state)
        }
    };
    [terms[0].1, terms[1].1, terms[2].1]
}

/// The combined parameters of the case's mixture.
pub fn combined(case: &Case) -> UVTheoryPars {
    let perturbation = match case.perturbation {
        0 => Perturbation::BarkerHenderson,
        1 => Perturbation::WeeksChandlerAndersen,
        2 => Perturbation::WeeksChandlerAndersenB3,
        _ => unreachable!("the record was checked"),
    };
    let pure = case.substances.iter().map(|substance| {
        let [rep, att, sigma, epsilon_k] = substance.map(Number::point);
        UVTheoryRecord::new(rep, att, sigma, epsilon_k)
    });
    let n = case.substances.len();
    let pairs = DMatrix::from_fn(n, n, |i, j| {
        // By the double that was sent, before it is a number of any kind.
        let l_ij = Some(case.l_ij(i, j)).filter(|&l_ij| l_ij != 0.0);
        (Number::point(case.k_ij(i, j)), l_ij.map(Number::point))
    });
    UVTheoryPars::new(&Parameters::new(pure.collect(), pairs), perturbation)
}

/// Along total density each partial density has the slope of its own fraction.
fn densities(case: &Case) -> DVector<Number> {
    let pairs = case.partial_density.iter().zip(&case.molefracs);
    pairs.map(|(&v, &x)| Number::point(v).with_slope(x)).collect::<Vec<_>>().into()
}

fn points(values: &[f64]) -> DVector<Number> {
    values.iter().map(|&v| Number::point(v)).collect::<Vec<_>>().into()
}
