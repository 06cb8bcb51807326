//! Links the static library that `tools/archive` makes.

use std::env;
use std::path::{Path, PathBuf};
use std::process::exit;

fn main() {
    let manifest = env::var_os("CARGO_MANIFEST_DIR").expect("cargo sets CARGO_MANIFEST_DIR");
    let folder = PathBuf::from(manifest).join("../../target/staticlib");
    let library = folder.join("libtimed_network_words.a");
    println!("cargo:rerun-if-changed={}", library.display());
    demand(&library);
    println!("cargo:rustc-link-search=native={}", folder.display());
    println!("cargo:rustc-link-lib=static=timed_network_words");
}

/// Ends the build with a clear message if the library is missing.
fn demand(library: &Path) {
    if !library.is_file() {
        eprintln!("The static library is missing: {}", library.display());
        eprintln!("Run `bash tools/archive` in the root of the repository, then build again.");
        exit(1);
    }
}
