//! The least, the median and the largest of some rates.

use std::fmt::{Display, Formatter, Result};

pub struct Spread {
    least: f64,
    pub median: f64,
    pub largest: f64,
}

impl Spread {
    pub fn of(rates: &[f64]) -> Self {
        let mut rates = rates.to_vec();
        rates.sort_by(f64::total_cmp);
        Self { least: rates[0], median: rates[rates.len() / 2], largest: rates[rates.len() - 1] }
    }
}

impl Display for Spread {
    /// The least and the largest as their distance from the median.
    fn fmt(&self, f: &mut Formatter) -> Result {
        let percent = |rate: f64| 100.0 * (rate / self.median - 1.0);
        write!(f, "{:+.0}% to {:+.0}%", percent(self.least), percent(self.largest))
    }
}
