//! Links the library with the functions of the C boundary.
//!
//! Its archive stands in `target/staticlib` of the repository, or in the directory that the
//! environment variable `TAG_INDEX_LIB_DIR` names; a relative one is taken from the repository's root.

use std::path::{Path, PathBuf};
use std::{env, process};

/// The library's name, as in Cargo.toml under `links`; the archive is `lib` and the name.
const LIBRARY: &str = "tag_index";

fn main() {
    println!("cargo:rerun-if-changed=build.rs");
    println!("cargo:rerun-if-env-changed=TAG_INDEX_LIB_DIR");
    let here = env::var_os("CARGO_MANIFEST_DIR").expect("cargo sets CARGO_MANIFEST_DIR");
    let named = env::var_os("TAG_INDEX_LIB_DIR").map(PathBuf::from);
    let directory = Path::new(&here)
        .join("../..")
        .join(named.unwrap_or_else(|| PathBuf::from("target/staticlib")));
    let library = directory.join(format!("lib{LIBRARY}.a"));
    println!("cargo:rerun-if-changed={}", library.display());
    if !library.is_file() {
        eprintln!(
            "tag_index: there is no {}.\n\
             `tools/staticlib` of the repository makes it; \
             TAG_INDEX_LIB_DIR names another directory to take it from.",
            library.display()
        );
        process::exit(1);
    }
    println!("cargo:rustc-link-search=native={}", directory.display());
    println!("cargo:rustc-link-lib=static={LIBRARY}");
}
