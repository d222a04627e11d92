//! Links the static library of the proved code to the integration tests and benchmarks, and to nothing else:
//! the package itself and its unit tests stand without it.
//!
//! `bash build.sh`, run in the repository root, writes the archive. The environment
//! variable `EXPORTS_DIR` names another directory to take it from, relative to the package.

use std::env;
use std::path::{Path, PathBuf};

fn main() {
    let package = env::var("CARGO_MANIFEST_DIR").expect("cargo sets CARGO_MANIFEST_DIR");
    let archive = directory(&package).join("libexports.a");
    println!("cargo:rerun-if-env-changed=EXPORTS_DIR");
    println!("cargo:rerun-if-changed={}", archive.display());
    if !archive.exists() {
        println!(
            "cargo:warning=libexports.a is missing: run `bash build.sh` in the repository \
             root before the integration tests"
        );
    }
    println!("cargo:rustc-link-arg-tests={}", archive.display());
    println!("cargo:rustc-link-arg-benches={}", archive.display());
}

fn directory(package: &str) -> PathBuf {
    match env::var_os("EXPORTS_DIR") {
        Some(directory) => Path::new(package).join(directory),
        None => Path::new(package).join("../target/staticlib"),
    }
}
