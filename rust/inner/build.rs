//! Links libinner_exports.a, the library for the tests: from the directory that the
//! environment names in BRUNDHAL_LIB, else from target/staticlib at the root of
//! the repository.

#![deny(warnings)]

use std::env;
use std::path::{Path, PathBuf};

fn library_directory() -> PathBuf {
    match env::var_os("BRUNDHAL_LIB") {
        Some(directory) => PathBuf::from(directory),
        None => Path::new(env!("CARGO_MANIFEST_DIR")).join("../../target/staticlib"),
    }
}

fn main() {
    let directory = library_directory();
    let archive = directory.join("libinner_exports.a");
    assert!(
        archive.is_file(),
        "{} is not there: build the library first, or name its directory in BRUNDHAL_LIB",
        archive.display()
    );
    println!("cargo:rerun-if-env-changed=BRUNDHAL_LIB");
    println!("cargo:rerun-if-changed={}", archive.display());
    println!("cargo:rustc-link-search=native={}", directory.display());
    println!("cargo:rustc-link-lib=static=inner_exports");
}
