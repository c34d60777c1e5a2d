//! Tells the linker where the library under test is.

use std::path::PathBuf;

fn main() {
    println!("cargo:rerun-if-env-changed=ORDC_LIB_DIR");
    if std::env::var_os("CARGO_FEATURE_ORDC").is_none() {
        return;
    }
    let directory = std::env::var_os("ORDC_LIB_DIR")
        .map(PathBuf::from)
        .expect("ORDC_LIB_DIR must name the directory of libordc.a");
    let library = directory.join("libordc.a");
    println!("cargo:rerun-if-changed={}", library.display());
    println!("cargo:rustc-link-search=native={}", directory.display());
    println!("cargo:rustc-link-lib=static=ordc");
}
