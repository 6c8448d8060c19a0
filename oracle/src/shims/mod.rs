//! As much of the crates that the ported text names as it reads.

pub mod feos_core;
pub mod nalgebra;
pub mod num_dual;
