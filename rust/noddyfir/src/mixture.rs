use crate::Refusal;

/// The most substances that a mixture can have.
pub const MAX_SUBSTANCES: usize = 8;

/// A substance by its Mie potential.
#[derive(Clone, Copy, Debug, PartialEq)]
pub struct Substance {
    /// The repulsive exponent, 8 to 48.
    pub rep: f64,
    /// The attractive exponent, 5 to 7; under BH 6.
    pub att: f64,
    /// The diameter in ångström, 0.5 to 10.
    pub sigma: f64,
    /// The depth of the potential divided by k, in kelvin, 0.1 to 5000.
    pub epsilon_k: f64,
}

impl Substance {
    /// Any values; the calls refuse those outside their intervals, with [`Refusal::Substances`], and under BH another att
    /// than 6, with [`Refusal::Attraction`].
    pub fn new(rep: f64, att: f64, sigma: f64, epsilon_k: f64) -> Self {
        Self { rep, att, sigma, epsilon_k }
    }
}

/// One to eight substances and two constants for each pair of them, k_ij and l_ij.
#[derive(Clone, Debug, PartialEq)]
pub struct Mixture {
    substances: Vec<Substance>,
    /// For i below j, row by row.
    k_ij: Vec<f64>,
    /// As k_ij.
    l_ij: Vec<f64>,
}

impl Mixture {
    /// The mixture with every k_ij and l_ij 0, or [`Refusal::Components`] where there are not one to eight substances.
    ///
    /// ```
    /// use noddyfir::{Mixture, Refusal, Substance};
    /// let argon = Substance::new(12.26, 6.0, 3.404, 117.84);
    /// assert!(Mixture::new(vec![argon; 8]).is_ok());
    /// assert_eq!(Mixture::new(vec![argon; 9]), Err(Refusal::Components));
    /// assert_eq!(Mixture::new(vec![]), Err(Refusal::Components));
    /// ```
    pub fn new(substances: Vec<Substance>) -> Result<Self, Refusal> {
        let n = substances.len();
        if !(1..=MAX_SUBSTANCES).contains(&n) {
            return Err(Refusal::Components);
        }
        let zeros = vec![0.0; n * (n - 1) / 2];
        Ok(Self { substances, k_ij: zeros.clone(), l_ij: zeros })
    }

    /// One substance.
    pub fn pure(substance: Substance) -> Self {
        Self { substances: vec![substance], k_ij: vec![], l_ij: vec![] }
    }

    /// Two substances, with an l_ij of 0.
    pub fn binary(first: Substance, second: Substance, k_ij: f64) -> Self {
        Self { substances: vec![first, second], k_ij: vec![k_ij], l_ij: vec![0.0] }
    }

    /// The mixture with another k_ij for the substances `i` and `j`, counted from 0, in either order.
    ///
    /// # Panics
    ///
    /// Where `i` and `j` are the same, or one of them is not in the mixture.
    ///
    /// ```
    /// use noddyfir::{Mixture, Substance};
    /// let argon = Substance::new(12.26, 6.0, 3.404, 117.84);
    /// let mixture = Mixture::new(vec![argon; 3])?.with_k_ij(2, 1, 0.02);
    /// assert_eq!([mixture.k_ij(0, 1), mixture.k_ij(0, 2), mixture.k_ij(1, 2)], [0.0, 0.0, 0.02]);
    /// # Ok::<(), noddyfir::Refusal>(())
    /// ```
    pub fn with_k_ij(mut self, i: usize, j: usize, k_ij: f64) -> Self {
        let place = self.place(i, j);
        self.k_ij[place] = k_ij;
        self
    }

    /// k_ij of the substances `i` and `j`, counted from 0, in either order.
    ///
    /// # Panics
    ///
    /// As [`Mixture::with_k_ij`].
    pub fn k_ij(&self, i: usize, j: usize) -> f64 {
        self.k_ij[self.place(i, j)]
    }

    /// The mixture with another l_ij for the substances `i` and `j`, counted from 0, in either order. The sigma of the pair
    /// is (1 − l_ij) times the mean of the two, and just the mean where l_ij is 0.
    ///
    /// # Panics
    ///
    /// As [`Mixture::with_k_ij`].
    ///
    /// ```
    /// use noddyfir::{Mixture, Substance};
    /// let argon = Substance::new(12.26, 6.0, 3.404, 117.84);
    /// let mixture = Mixture::new(vec![argon; 3])?.with_l_ij(2, 1, 0.02);
    /// assert_eq!([mixture.l_ij(0, 1), mixture.l_ij(0, 2), mixture.l_ij(1, 2)], [0.0, 0.0, 0.02]);
    /// # Ok::<(), noddyfir::Refusal>(())
    /// ```
    pub fn with_l_ij(mut self, i: usize, j: usize, l_ij: f64) -> Self {
        let place = self.place(i, j);
        self.l_ij[place] = l_ij;
        self
    }

    /// l_ij of the substances `i` and `j`, counted from 0, in either order.
    ///
    /// # Panics
    ///
    /// As [`Mixture::with_k_ij`].
    pub fn l_ij(&self, i: usize, j: usize) -> f64 {
        self.l_ij[self.place(i, j)]
    }

    /// The substances in their order.
    pub fn substances(&self) -> &[Substance] {
        &self.substances
    }

    /// Every k_ij and every l_ij, for i below j, row by row.
    pub(crate) fn pairs(&self) -> [&[f64]; 2] {
        [&self.k_ij, &self.l_ij]
    }

    fn place(&self, i: usize, j: usize) -> usize {
        let (n, row, column) = (self.substances.len(), i.min(j), i.max(j));
        assert!(row < column && column < n, "no pair {i}, {j} of {n} substances");
        row * (2 * n - row - 1) / 2 + column - row - 1
    }
}
