//! The known case of the self-check, by its bytes in `c/known_case.h`, which the build script takes over: a record whose
//! perturbation, byte 3, is put in before each call, and by perturbation the answers.

use crate::bytes::{ENDS_SIZE, ENERGIES_SIZE, SLOPES_SIZE};

include!(concat!(env!("OUT_DIR"), "/known.rs"));
