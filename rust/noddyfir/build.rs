//! Tells cargo where the proved archive is, and takes the known case of the self-check over from C.

use std::path::{Path, PathBuf};
use std::{env, fs};

fn main() {
    let package = PathBuf::from(env::var_os("CARGO_MANIFEST_DIR").expect("cargo sets it"));
    link(&package);
    known_case(&package.join("../../c/known_case.h"));
}

fn link(package: &Path) {
    println!("cargo::rerun-if-env-changed=NODDYFIR_STATICLIB");
    let folder = env::var_os("NODDYFIR_STATICLIB")
        .map_or_else(|| package.join("../../target/staticlib"), PathBuf::from);
    let archive = folder.join("libnoddyfir.a");
    // Without this line cargo would not link anew for a new archive.
    println!("cargo::rerun-if-changed={}", archive.display());
    println!("cargo::rustc-link-search=native={}", folder.display());
    if !archive.exists() {
        println!(
            "cargo::error={} is missing: make it with `tools/archive`, or name its folder in NODDYFIR_STATICLIB",
            archive.display()
        );
    }
}

/// Writes the tables of the header as the Rust that `src/known.rs` includes, so that their bytes stand in one place.
fn known_case(header: &Path) {
    println!("cargo::rerun-if-changed={}", header.display());
    let text = fs::read_to_string(header).expect("c/known_case.h is in the repository");
    let rust: String = [
        ("RECORD", "[u8; 117]"),
        ("ENERGIES", "[[u8; ENERGIES_SIZE]; 3]"),
        ("ENDS", "[[u8; ENDS_SIZE]; 3]"),
        ("SLOPES", "[[u8; SLOPES_SIZE]; 3]"),
    ]
    .map(|(name, kind)| format!("pub const {name}: {kind} = {};\n", table(&text, name)))
    .concat();
    let out = PathBuf::from(env::var_os("OUT_DIR").expect("cargo sets it"));
    fs::write(out.join("known.rs"), rust).expect("cargo's folder can be written");
}

/// The table KNOWN_name of the header, with Rust's brackets.
fn table(text: &str, name: &str) -> String {
    let (_, behind) = text.split_once(&format!("KNOWN_{name}[")).expect("a table of the header");
    let (_, behind) = behind.split_once("= ").expect("its value");
    let (value, _) = behind.split_once(';').expect("its end");
    value.replace('{', "[").replace('}', "]")
}
