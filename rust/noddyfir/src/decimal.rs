//! Decimal figures of doubles, and how many of an energy's figures are certain.
//!
//! A double is a binary fraction, so its decimal expansion ends, after at most 767 figures. Everything here is worked on
//! that whole expansion; nothing is rounded to nearest.
//!
//! # Certain figures
//!
//! The certain figures of an energy are the leading figures that the decimal expansions of its lower and its upper end
//! have in common, counted from the first that is not 0. Every number between the ends begins with them: the energy in
//! doubles, and what the same formulas give without rounding. So it is safe to cut the energy after any number of certain
//! figures, and to round it (half away from zero) to any lesser number of them.
//!
//! - Ends that differ in sign, or of which one is 0, have no certain figure. Nor have 0.9999 and 1.0001, though they are
//!   close: no figure is common to them. So the number is careful: it can be small although the ends are close, but never
//!   the other way round. How close they are is [`Range::width`].
//! - 0.5 and 0.50390625 have two: 0.50.
//! - Ends that are the same double leave nothing uncertain and count as [`ALL_FIGURES`], which is more than two different
//!   doubles can have in common.

use crate::Range;
use std::fmt::{self, Display, Formatter};
use std::iter::repeat_n;

/// The count for ends that are the same double. Seventeen figures tell every double from every other.
pub const ALL_FIGURES: usize = 17;

/// So many figures are printed: cut or raised to as many, a decimal is still nearest to the double that it came from.
pub const PRINTED_FIGURES: usize = 18;

/// The exponents that are written without a power of ten.
const PLAIN: std::ops::RangeInclusive<i32> = -5..=5;

/// A decimal number: d.ddd.. × 10^exponent. The first figure is not 0, but for the number 0.
#[derive(Clone, Debug, PartialEq, Eq)]
pub struct Decimal {
    negative: bool,
    figures: Vec<u8>,
    exponent: i32,
}

impl Decimal {
    /// The whole expansion of a double.
    ///
    /// ```
    /// use noddyfir::decimal::Decimal;
    /// let tenth = Decimal::exact(0.1).to_string();
    /// assert_eq!(tenth, "0.1000000000000000055511151231257827021181583404541015625");
    /// ```
    ///
    /// # Panics
    ///
    /// Where the double is not finite; energies and ends always are.
    pub fn exact(double: f64) -> Self {
        assert!(double.is_finite(), "{double} has no decimal expansion");
        let text = format!("{:.766e}", double.abs());
        let (figures, exponent) = text.split_once('e').expect("as asked for by the format");
        let figures = figures.bytes().filter(u8::is_ascii_digit).map(|byte| byte - b'0').collect();
        let exponent = exponent.parse().expect("as asked for by the format");
        let mut decimal = Self { negative: double < 0.0, figures, exponent };
        decimal.drop_zeros();
        decimal
    }

    /// With at most so many figures, towards 0.
    ///
    /// ```
    /// use noddyfir::decimal::Decimal;
    /// assert_eq!(Decimal::exact(-1.9921875).cut(3).to_string(), "-1.99");
    /// ```
    pub fn cut(mut self, figures: usize) -> Self {
        self.figures.truncate(figures.max(1));
        self.drop_zeros();
        self
    }

    /// With at most so many figures, away from 0 where any are lost.
    ///
    /// ```
    /// use noddyfir::decimal::Decimal;
    /// assert_eq!(Decimal::exact(-1.9921875).raise(3).to_string(), "-2");
    /// assert_eq!(Decimal::exact(99.75).raise(2).to_string(), "100");
    /// assert_eq!(Decimal::exact(99.75).raise(4).to_string(), "99.75");
    /// ```
    pub fn raise(self, figures: usize) -> Self {
        let loses = self.figures.len() > figures.max(1);
        let mut raised = self.cut(figures);
        if loses {
            raised.figures.extend(repeat_n(0, figures.max(1) - raised.figures.len()));
            raised.add_unit();
            raised.drop_zeros();
        }
        raised
    }

    /// Adds one to the last figure.
    fn add_unit(&mut self) {
        for figure in self.figures.iter_mut().rev() {
            if *figure < 9 {
                *figure += 1;
                return;
            }
            *figure = 0;
        }
        self.figures.insert(0, 1);
        self.exponent += 1;
    }

    fn drop_zeros(&mut self) {
        while self.figures.len() > 1 && self.figures.last() == Some(&0) {
            self.figures.pop();
        }
    }

    fn is_zero(&self) -> bool {
        self.figures == [0]
    }

    /// Zeros follow the last figure.
    fn figure(&self, place: usize) -> u8 {
        self.figures.get(place).copied().unwrap_or(0)
    }

    /// How many leading figures two different numbers have in common.
    fn common_figures(&self, other: &Self) -> usize {
        let apart = self.is_zero() || other.is_zero() || self.negative != other.negative;
        if apart || self.exponent != other.exponent {
            return 0;
        }
        (0..).take_while(|&place| self.figure(place) == other.figure(place)).count()
    }

    /// The text, with a bar after so many figures.
    fn text(&self, bar: Option<usize>) -> String {
        let mut text = String::new();
        text.push_str(if bar == Some(0) { "|" } else { "" });
        text.push_str(if self.negative { "-" } else { "" });
        let plain = PLAIN.contains(&self.exponent);
        let before_point = if plain { self.exponent } else { 0 };
        if before_point < 0 {
            text.push_str("0.");
            text.extend(repeat_n('0', (-before_point - 1) as usize));
        }
        let shown = self.figures.len().max((before_point + 1).max(0) as usize);
        for place in 0..shown {
            text.push_str(if place > 0 && bar == Some(place) { "|" } else { "" });
            text.push(char::from(b'0' + self.figure(place)));
            let point = place as i32 == before_point && place + 1 < shown;
            text.push_str(if point { "." } else { "" });
        }
        if !plain {
            text.push_str(&format!("e{}", self.exponent));
        }
        text
    }
}

impl Display for Decimal {
    fn fmt(&self, f: &mut Formatter) -> fmt::Result {
        f.pad(&self.text(None))
    }
}

/// The double with [`PRINTED_FIGURES`] figures, cut and not rounded, and a bar behind the certain ones.
///
/// ```
/// use noddyfir::decimal::marked;
/// assert_eq!(marked(-0.0625, 3), "-0.0625|000000000000000");
/// assert_eq!(marked(0.3, 0), "|0.299999999999999988");
/// ```
pub fn marked(double: f64, certain: usize) -> String {
    let mut decimal = Decimal::exact(double).cut(PRINTED_FIGURES);
    if certain >= ALL_FIGURES {
        return decimal.to_string();
    }
    decimal.figures.resize(PRINTED_FIGURES, 0);
    decimal.text(Some(certain))
}

impl Range {
    /// The number of certain figures, as [`decimal`](crate::decimal) defines them.
    ///
    /// ```
    /// use noddyfir::Range;
    /// assert_eq!(Range { lower: 1.2344, upper: 1.2346 }.certain_figures(), 4);
    /// assert_eq!(Range { lower: 0.9999, upper: 1.0001 }.certain_figures(), 0);
    /// ```
    pub fn certain_figures(&self) -> usize {
        if self.lower == self.upper {
            return ALL_FIGURES;
        }
        Decimal::exact(self.lower).common_figures(&Decimal::exact(self.upper))
    }

    /// The ends with at most so many figures, rounded outwards: the lower one down, the upper one up.
    ///
    /// ```
    /// use noddyfir::Range;
    /// let [lower, upper] = Range { lower: -0.3, upper: 0.3 }.outwards(2);
    /// assert_eq!([lower.to_string(), upper.to_string()], ["-0.3", "0.3"]);
    /// let [lower, upper] = Range { lower: 0.3, upper: 0.7 }.outwards(2);
    /// assert_eq!([lower.to_string(), upper.to_string()], ["0.29", "0.7"]);
    /// ```
    pub fn outwards(&self, figures: usize) -> [Decimal; 2] {
        let [lower, upper] = [self.lower, self.upper].map(Decimal::exact);
        let lower = if lower.negative { lower.raise(figures) } else { lower.cut(figures) };
        let upper = if upper.negative { upper.cut(figures) } else { upper.raise(figures) };
        [lower, upper]
    }

    /// How far the ends are apart, or a little more, with two figures. Each exact value of the energy is at most so far
    /// from the double.
    ///
    /// ```
    /// use noddyfir::Range;
    /// assert_eq!(Range { lower: 1.0, upper: 1.25 }.width().to_string(), "0.26");
    /// assert_eq!(Range { lower: 1.25, upper: 1.25 }.width().to_string(), "0");
    /// ```
    pub fn width(&self) -> Decimal {
        if self.lower == self.upper {
            return Decimal::exact(0.0);
        }
        // The difference is rounded once, so the next double is not below the exact one.
        let above = (self.upper - self.lower).next_up();
        if above.is_infinite() {
            // Twice the largest double is 3.59..e308.
            return Decimal { negative: false, figures: vec![3, 6], exponent: 308 };
        }
        Decimal::exact(above).raise(2)
    }
}
