/// A state. Densities and fractions are sent as they stand here, as two separate lists.
#[derive(Clone, Debug, PartialEq)]
pub struct State {
    /// In kelvin, 1 to 5000.
    pub temperature: f64,
    /// Of each substance, in molecules per cubic ångström, 0 to 2.
    pub partial_density: Vec<f64>,
    /// Of each substance, 0 to 1; they add up to 1 within 2^-40.
    pub molefracs: Vec<f64>,
}

impl State {
    /// The partial densities are the products of the total density and the fractions, each rounded once.
    ///
    /// ```
    /// use noddyfir::State;
    /// let state = State::with_density(300.0, 0.008, vec![0.75, 0.25]);
    /// assert_eq!(state.partial_density, [0.006, 0.002]);
    /// ```
    pub fn with_density(temperature: f64, density: f64, molefracs: Vec<f64>) -> Self {
        let partial_density = molefracs.iter().map(|fraction| fraction * density).collect();
        Self { temperature, partial_density, molefracs }
    }

    /// The total density: the sum of the partial densities, added from the left.
    ///
    /// ```
    /// use noddyfir::State;
    /// assert_eq!(State::with_partial_density(300.0, vec![0.006, 0.002]).density(), 0.008);
    /// ```
    pub fn density(&self) -> f64 {
        self.partial_density.iter().fold(0.0, |sum, density| sum + density)
    }

    /// The fractions are the partial densities divided by their sum. Densities that are all 0 have no fractions: then
    /// use [`State::with_density`], or the calls refuse the state.
    ///
    /// ```
    /// use noddyfir::State;
    /// let state = State::with_partial_density(300.0, vec![0.006, 0.002]);
    /// assert_eq!(state.molefracs, [0.75, 0.25]);
    /// ```
    pub fn with_partial_density(temperature: f64, partial_density: Vec<f64>) -> Self {
        let density = partial_density.iter().fold(0.0, |sum, density| sum + density);
        let molefracs = partial_density.iter().map(|partial| partial / density).collect();
        Self { temperature, partial_density, molefracs }
    }
}
