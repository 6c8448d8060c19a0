//! Reads the Rust text that is ported and writes it to OUT_DIR, changed as `table` says and in no
//! other way. The text itself never comes into this repository.

mod scan;
mod table;

use std::path::{Path, PathBuf};
use std::{env, fs};

fn main() {
    println!("cargo::rerun-if-env-changed=NODDYFIR_SEED");
    println!("cargo::rustc-check-cfg=cfg(feature, values(\"dft\"))");
    let seed = seed_directory().join("crates/feos/src");
    let out = PathBuf::from(env::var_os("OUT_DIR").expect("cargo sets OUT_DIR")).join("seed");
    for (file, text) in table::ADDED {
        write(&out.join(file), text);
    }
    for file in table::FILES {
        write(&out.join(file), &rewritten(file, &read(&seed.join(file))));
    }
}

/// The directory `docs/src`: beside the repository, or where NODDYFIR_SEED says.
fn seed_directory() -> PathBuf {
    env::var_os("NODDYFIR_SEED").map_or_else(|| table::SEED.into(), PathBuf::from)
}

fn read(path: &Path) -> String {
    println!("cargo::rerun-if-changed={}", path.display());
    fs::read_to_string(path).unwrap_or_else(|error| {
        let path = path.display();
        println!("cargo::error=the ported Rust is missing: {path}: {error}");
        println!("cargo::error=NODDYFIR_SEED may name the directory docs/src that holds it");
        std::process::exit(1)
    })
}

fn write(path: &Path, text: &str) {
    fs::create_dir_all(path.parent().expect("a file has a directory"))
        .expect("OUT_DIR is writable");
    fs::write(path, text).expect("OUT_DIR is writable");
}

/// The text of `file` after every substitution.
fn rewritten(file: &str, text: &str) -> String {
    let mut text = text.to_string();
    for (place, from, to) in table::PASSAGES {
        if place == file {
            let found = text.matches(from).count();
            assert!(found == 1, "{file}: expected once, found {found} times: {from}");
            text = text.replace(from, to);
        }
    }
    if file == table::KEPT.0 {
        text = between(&text, table::KEPT.1, table::KEPT.2);
    }
    for (from, to) in table::PATHS {
        text = text.replace(from, to);
    }
    let root = root_from(file);
    // At the end, since a file may begin with inner doc comments.
    scan::substitute(&text, &root) + &format!("\nuse {root}::Number;\n")
}

/// The part of `text` from `start` up to `end`.
fn between(text: &str, start: &str, end: &str) -> String {
    let (from, to) = (text.find(start), text.find(end));
    let (from, to) = (from.expect("the kept part starts"), to.expect("the kept part ends"));
    text[from..to].to_string()
}

/// The path from the module of `file` to the module into which the whole text is included.
fn root_from(file: &str) -> String {
    let module = file.trim_end_matches(".rs").trim_end_matches("/mod");
    vec!["super"; module.split('/').count()].join("::")
}
