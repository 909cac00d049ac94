//! Links the archive. It is made by `bindings/archive` and stands in the repository's target/staticlib, or in the directory that the
//! variable JIGGERREEF_ARCHIVE names.
use std::{env, path::PathBuf};

fn main() {
    println!("cargo:rerun-if-env-changed=JIGGERREEF_ARCHIVE");
    let own = || PathBuf::from(env!("CARGO_MANIFEST_DIR")).join("../../target/staticlib");
    let directory = env::var_os("JIGGERREEF_ARCHIVE").map_or_else(own, PathBuf::from);
    let archive = directory.join("libjiggerreef.a");
    assert!(archive.exists(), "no {}: run `bindings/archive` in the repository first", archive.display());
    println!("cargo:rerun-if-changed={}", archive.display());
    println!("cargo:rustc-link-search=native={}", directory.display());
    println!("cargo:rustc-link-lib=static=jiggerreef");
}
