//! Tells cargo where `tools/archive` wrote the archive.

use std::env;
use std::path::PathBuf;

fn main() {
    println!("cargo::rerun-if-env-changed=NODDYFIR_STATICLIB");
    let package = PathBuf::from(env::var_os("CARGO_MANIFEST_DIR").expect("cargo sets it"));
    let folder = env::var_os("NODDYFIR_STATICLIB")
        .map_or_else(|| package.join("../target/staticlib"), PathBuf::from);
    // Without this line cargo would not link anew for a new archive.
    println!("cargo::rerun-if-changed={}", folder.join("libnoddyfir.a").display());
    println!("cargo::rustc-link-search=native={}", folder.display());
}
