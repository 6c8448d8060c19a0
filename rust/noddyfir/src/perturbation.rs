use std::fmt::{self, Display, Formatter};

/// Type of perturbation, by the names of feos.
#[derive(Clone, Copy, Debug, PartialEq, Eq)]
pub enum Perturbation {
    /// BH, 0 in a record.
    BarkerHenderson,
    /// WCA, 1 in a record.
    WeeksChandlerAndersen,
    /// WCA-B3, 2 in a record.
    WeeksChandlerAndersenB3,
}

impl Perturbation {
    /// All three, in the order of their bytes.
    pub const ALL: [Self; 3] =
        [Self::BarkerHenderson, Self::WeeksChandlerAndersen, Self::WeeksChandlerAndersenB3];

    /// BH, WCA or WCA-B3.
    pub fn name(self) -> &'static str {
        match self {
            Self::BarkerHenderson => "BH",
            Self::WeeksChandlerAndersen => "WCA",
            Self::WeeksChandlerAndersenB3 => "WCA-B3",
        }
    }

    /// The perturbation with this name.
    ///
    /// ```
    /// use noddyfir::Perturbation;
    /// assert_eq!(Perturbation::from_name("BH"), Some(Perturbation::BarkerHenderson));
    /// ```
    pub fn from_name(name: &str) -> Option<Self> {
        Self::ALL.into_iter().find(|perturbation| perturbation.name() == name)
    }

    pub(crate) fn byte(self) -> u8 {
        self as u8
    }
}

impl Display for Perturbation {
    fn fmt(&self, f: &mut Formatter) -> fmt::Result {
        f.write_str(self.name())
    }
}
