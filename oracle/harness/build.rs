//! Where the archive is, for the programs that link it.
use std::env::{var, var_os};

const FOLDER: &str = "PIET_LIBRARY";

fn main() {
    println!("cargo:rerun-if-env-changed={FOLDER}");
    if var_os("CARGO_FEATURE_ARCHIVE").is_some() {
        let folder = var(FOLDER).expect("PIET_LIBRARY names the folder of libpiet_c.a");
        println!("cargo:rustc-link-search=native={folder}");
        println!("cargo:rerun-if-changed={folder}/libpiet_c.a");
    }
}
