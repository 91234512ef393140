//! Links the static library: `libbaarqidho.a` in BAARQIDHO_LIB_DIR, or in target/lib of the repository.

use std::env;
use std::path::{Path, PathBuf};

fn main() {
    println!("cargo::rerun-if-env-changed=BAARQIDHO_LIB_DIR");
    let directory = directory();
    let library = directory.join("libbaarqidho.a");
    println!("cargo::rerun-if-changed={}", library.display());
    if !library.is_file() {
        println!("cargo::error=the proved library is missing: no file {}", library.display());
        println!("cargo::error=run `make library` in the repository, or name its directory in BAARQIDHO_LIB_DIR");
        return;
    }
    println!("cargo::rustc-link-search=native={}", directory.display());
    println!("cargo::rustc-link-lib=static=baarqidho");
}

/// The directory that has the library.
fn directory() -> PathBuf {
    match env::var_os("BAARQIDHO_LIB_DIR") {
        Some(directory) => PathBuf::from(directory),
        None => Path::new(env!("CARGO_MANIFEST_DIR")).join("../../target/lib"),
    }
}
