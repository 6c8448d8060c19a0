//! The pressure, which is worked from the slopes here and not in the proved library.

use crate::{Case, Refusal, Slopes, State, slopes};

/// In bar cubic ångström per kelvin: 1.380649e-23 joule per kelvin, which is exact by the definition of the kelvin.
const BOLTZMANN: f64 = 138.0649;

/// A pressure in bar by its two parts.
///
/// With ρ the sum of the partial densities, a sum over the three energies of [`Slopes`], and T the temperature, the whole
/// is kT × (ρ + ρ × Σ slope − Σ value). It is worked outside the proof, in doubles, and has no ends: where the energies
/// nearly cancel, or the pressure itself is near 0, fewer of its figures are good.
///
/// This takes densities that are the fractions times ρ, as [`State::with_density`] and [`State::with_partial_density`] make
/// them. For others the slopes are not along ρ, and the number is not a pressure.
#[derive(Clone, Copy, Debug, PartialEq)]
pub struct Pressure {
    /// Of the ideal gas of the same density: kT × ρ.
    pub ideal: f64,
    /// What the energies add to it: kT × (ρ × Σ slope − Σ value).
    pub residual: f64,
}

impl Pressure {
    /// From slopes that are there already, of this state.
    pub fn of(slopes: &Slopes, state: &State) -> Self {
        let (kt, density) = (BOLTZMANN * state.temperature, state.density());
        let [value, slope] = slopes
            .all()
            .iter()
            .fold([0.0; 2], |[value, slope], energy| [value + energy.value, slope + energy.slope]);
        Self { ideal: kt * density, residual: kt * (density * slope - value) }
    }

    /// The pressure: both parts together.
    pub fn total(&self) -> f64 {
        self.ideal + self.residual
    }
}

/// The pressure of a case.
///
/// ```
/// use noddyfir::{Case, Mixture, Perturbation, State, Substance, pressure};
/// let argon = Substance::new(12.26, 6.0, 3.404, 117.84);
/// let methane = Substance::new(12.65, 6.0, 3.7412, 153.36);
/// let state = State::with_density(293.15, 0.005, vec![0.8, 0.2]);
/// let mixture = Mixture::binary(argon, methane, 0.01);
/// let pressure = pressure(&Case::new(Perturbation::WeeksChandlerAndersen, mixture, state)?)?;
/// assert_eq!(format!("{:.2} bar", pressure.ideal), "202.37 bar");
/// assert_eq!(format!("{:.2} bar", pressure.total()), "186.00 bar");
/// # Ok::<(), noddyfir::Refusal>(())
/// ```
pub fn pressure(case: &Case) -> Result<Pressure, Refusal> {
    slopes(case).map(|slopes| Pressure::of(&slopes, case.state()))
}
