//! Residual Helmholtz energies of gas and liquid mixtures by uv-theory, ends that enclose them, and their slopes.
//!
//! The numbers come from a proved library; this crate gives it types. [`energies`] has three energies, each divided by
//! kT, per cubic ångström. [`ends`] has for each a lower and an upper end. Proved, for every case that has ends: each
//! energy lies between its ends, and so does what the same formulas give in fractions without any rounding, whichever
//! fraction between its own ends each root takes. [`slopes`] has the energies with their slopes along the total density;
//! [`pressure`] is worked from these, outside the proof. `docs/TRUST.md` says on what the proof rests; [`self_check`]
//! tests what a host program can break by accident, and every call asks it.
//!
//! ```
//! use noddyfir::{Case, Mixture, Perturbation, State, Substance, ends, energies};
//!
//! // rep, att, sigma in ångström, epsilon_k in kelvin.
//! let argon = Substance::new(12.26, 6.0, 3.404, 117.84);
//! let methane = Substance::new(12.65, 6.0, 3.7412, 153.36);
//! let mixture = Mixture::binary(argon, methane, 0.01);
//! // Kelvin, molecules per cubic ångström, mole fractions.
//! let state = State::with_density(293.15, 0.005, vec![0.8, 0.2]);
//! let case = Case::new(Perturbation::WeeksChandlerAndersen, mixture, state)?;
//!
//! let value = energies(&case)?.attractive;
//! let range = ends(&case)?.attractive;
//! assert!(range.lower <= value && value <= range.upper);
//! assert_eq!(range.certain_figures(), 12);
//! # Ok::<(), noddyfir::Refusal>(())
//! ```
//!
//! Names follow feos where it has them: `Perturbation`, `rep`, `att`, `sigma`, `epsilon_k`, `k_ij`, `temperature`,
//! `partial_density`, `molefracs`. A pair's second constant is `l_ij` ([`Mixture::with_l_ij`]); records that have it are of
//! version 2, and [`to_version_1`] and [`to_version_2`] move records between the versions.

#![deny(unsafe_code)]
#![warn(missing_docs)]

#[cfg(not(target_arch = "x86_64"))]
compile_error!("the proved library is built for x86-64");

mod answer;
mod batch;
pub mod bytes;
mod call;
mod case;
pub mod decimal;
mod field;
mod known;
mod mixture;
mod moves;
mod perturbation;
mod pressure;
#[allow(unsafe_code)]
mod raw;
mod refusal;
mod self_check;
mod state;

pub use answer::{Ends, Energies, Range, Sloped, Slopes};
pub use batch::{run_ends, run_energies, run_slopes};
pub use call::{ends, energies, slopes};
pub use case::Case;
pub use field::{Field, FieldAtFault};
pub use mixture::{MAX_SUBSTANCES, Mixture, Substance};
pub use moves::{to_version_1, to_version_2};
pub use perturbation::Perturbation;
pub use pressure::{Pressure, pressure};
pub use refusal::Refusal;
pub use self_check::{Fault, self_check};
pub use state::State;
