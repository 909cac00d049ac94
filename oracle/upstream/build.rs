//! Makes the source's two files modules of this package. They stand in the directory that the variable UPSTREAM names.
use std::{env, fs, path::Path};

fn main() {
    println!("cargo:rerun-if-env-changed=UPSTREAM");
    let directory = env::var("UPSTREAM").expect("UPSTREAM names the directory that holds smt_fmt.rs and smt_horn.rs");
    let module = |name: &str| {
        let file = Path::new(&directory).join(format!("{name}.rs"));
        assert!(file.exists(), "no {}", file.display());
        format!("#[allow(dead_code)]\n#[path = {file:?}]\nmod {name};\n")
    };
    let modules = module("smt_fmt") + &module("smt_horn");
    fs::write(Path::new(&env::var("OUT_DIR").expect("OUT_DIR")).join("modules.rs"), modules).expect("modules.rs");
}
