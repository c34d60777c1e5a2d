//! Finds libordc.a: in the folder that ORDC_LIB_DIR names, else in target/staticlib of the repository.

use std::env;
use std::path::PathBuf;

fn main() {
    println!("cargo:rerun-if-env-changed=ORDC_LIB_DIR");
    let folder = match env::var_os("ORDC_LIB_DIR") {
        Some(named) => PathBuf::from(named),
        None => {
            let here = env::var_os("CARGO_MANIFEST_DIR").expect("cargo names the crate's folder");
            PathBuf::from(here).join("../../target/staticlib")
        }
    };
    let archive = folder.join("libordc.a");
    if !archive.exists() {
        panic!(
            "{} is missing: run `make lib` in the repository, or set ORDC_LIB_DIR",
            archive.display()
        );
    }
    println!("cargo:rerun-if-changed={}", archive.display());
    println!("cargo:rustc-link-search=native={}", folder.display());
    println!("cargo:rustc-link-lib=static=ordc");
}
