//! What the build changes in the Rust text, as tables; README.md gives the reasons.

/// Where `docs/src` lies, from this package's directory.
pub const SEED: &str = "../../shared/docs/src";

/// The files that are compiled.
pub const FILES: [&str; 13] = [
    "hard_sphere/mod.rs",
    "uvtheory/parameters.rs",
    "uvtheory/eos/mod.rs",
    "uvtheory/eos/bh/mod.rs",
    "uvtheory/eos/bh/hard_sphere.rs",
    "uvtheory/eos/bh/reference_perturbation.rs",
    "uvtheory/eos/bh/attractive_perturbation.rs",
    "uvtheory/eos/wca/mod.rs",
    "uvtheory/eos/wca/hard_sphere.rs",
    "uvtheory/eos/wca/reference_perturbation.rs",
    "uvtheory/eos/wca/attractive_perturbation.rs",
    "uvtheory/eos/wca/reference_perturbation_uvb3.rs",
    "uvtheory/eos/wca/attractive_perturbation_uvb3.rs",
];

/// Module files that stand above these in feos and are not in `docs/src`.
pub const ADDED: [(&str, &str); 2] = [
    ("lib.rs", "pub mod hard_sphere;\npub mod uvtheory;\n"),
    (
        "uvtheory/mod.rs",
        "mod eos;\npub mod parameters;\npub use eos::{BarkerHenderson, Perturbation, \
         WeeksChandlerAndersen, WeeksChandlerAndersenB3};\n",
    ),
];

/// Paths, in every file; what `crate` stands for is said below.
pub const PATHS: [(&str, &str); 1] = [("std::f64::consts", "crate::consts")];

/// Whole words, in every file. The word `crate` becomes the path to the including module, and a
/// decimal literal `x`, with a sign directly before it, becomes `Number::point(x)`.
pub const WORDS: [(&str, &str); 4] = [
    ("f64", "Number"),
    ("feos_core", "crate::shims::feos_core"),
    ("nalgebra", "crate::shims::nalgebra"),
    ("num_dual", "crate::shims::num_dual"),
];

/// Of this file, only the part from the first text up to the second: the rest is `UVTheory`.
pub const KEPT: (&str, &str, &str) =
    ("uvtheory/eos/mod.rs", "mod bh;", "/// Configuration options for uv-theory");

/// Passages: the file, its text (there exactly once) and what stands there instead.
pub const PASSAGES: [(&str, &str, &str); 10] = [
    ("uvtheory/parameters.rs", "use serde::{Deserialize, Serialize};\n", ""),
    ("uvtheory/parameters.rs", ", Serialize, Deserialize)]", ")]"),
    // BH coefficients are worked for BH records only,
    (
        "uvtheory/parameters.rs",
        "rep.iter().map(|&mi|",
        "rep.iter().filter(|_| perturbation == Perturbation::BarkerHenderson).map(|&mi|",
    ),
    // and those of pairs never.
    ("uvtheory/parameters.rs", "    pub cd_bh_binary: DMatrix<[f64; 5]>,\n", ""),
    (
        "uvtheory/parameters.rs",
        "        let cd_bh_binary = DMatrix::from_fn(n, n, |i, j| bh_coefficients(rep_ij[(i, j)], 6.0));\n",
        "",
    ),
    ("uvtheory/parameters.rs", "            cd_bh_binary,\n", ""),
    // M-104: a pair has k_ij and l_ij, which is none where the double that was sent is 0,
    (
        "uvtheory/parameters.rs",
        "Parameters<UVTheoryRecord, f64, ()>",
        "Parameters<UVTheoryRecord, (f64, Option<f64>), ()>",
    ),
    (
        "uvtheory/parameters.rs",
        "        let [k_ij] = parameters.collate_binary(|&br| [br]);\n",
        "        let [k_ij] = parameters.collate_binary(|&(k_ij, _)| [k_ij]);
        let [l_ij] = parameters.collate_binary(|&(_, l_ij)| [l_ij]);\n",
    ),
    // and only where there is one, sigma_ij has two operations more.
    (
        "uvtheory/parameters.rs",
        "                sigma_ij[(i, j)] = 0.5 * (sigma[i] + sigma[j]);\n",
        "                sigma_ij[(i, j)] = 0.5 * (sigma[i] + sigma[j]);
                if let Some(l_ij) = l_ij[(i, j)] {
                    sigma_ij[(i, j)] = (1.0 - l_ij) * sigma_ij[(i, j)];
                }\n",
    ),
    // A cast to a type of our own.
    (
        "uvtheory/eos/wca/attractive_perturbation_uvb3.rs",
        "factorial(i as u64) as f64 * i as f64",
        "f64::whole(factorial(i as u64)) * f64::whole(i as u64)",
    ),
];
