//! Says where `libpiet_c.a` is: in the folder that PIET_LIB names, else where `tools/archive` writes it.
use std::path::{Path, PathBuf};

fn main() {
    println!("cargo:rerun-if-env-changed=PIET_LIB");
    let folder = std::env::var_os("PIET_LIB").map_or_else(built_here, PathBuf::from);
    let archive = folder.join("libpiet_c.a");
    println!("cargo:rerun-if-changed={}", archive.display());
    let Ok(found) = archive.canonicalize() else {
        eprintln!("there is no {}", archive.display());
        eprintln!("make it by `tools/archive`, or name its folder in PIET_LIB");
        std::process::exit(1);
    };
    let folder = found.parent().expect("a file lies in a folder");
    println!("cargo:rustc-link-search=native={}", folder.display());
    println!("cargo:rustc-link-lib=static=piet_c");
}

fn built_here() -> PathBuf {
    let crate_folder = std::env::var_os("CARGO_MANIFEST_DIR").expect("cargo sets CARGO_MANIFEST_DIR");
    Path::new(&crate_folder).join("../../target/staticlib")
}
