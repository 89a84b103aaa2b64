//! Finds the static library: in the folder that LAYERPLAN_LIB_DIR names, or else where `tests/export/library`
//! writes it, target/staticlib of this repository.

use std::path::PathBuf;

fn main() {
    let own = PathBuf::from(std::env::var_os("CARGO_MANIFEST_DIR").expect("cargo sets it"));
    let folder = std::env::var_os("LAYERPLAN_LIB_DIR").map_or(own.join("../../target/staticlib"), PathBuf::from);
    let library = folder.join("liblayerplan_c.a");
    println!("cargo:rerun-if-env-changed=LAYERPLAN_LIB_DIR");
    println!("cargo:rerun-if-changed={}", library.display());
    if !library.is_file() {
        eprintln!("There is no {}.", library.display());
        eprintln!("`tests/export/library` writes it; LAYERPLAN_LIB_DIR names another folder that has it.");
        std::process::exit(1);
    }
    println!("cargo:rustc-link-search=native={}", folder.display());
    println!("cargo:rustc-link-lib=static=layerplan_c");
}
