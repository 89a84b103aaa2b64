//! Compiles watch.c with gcc.

use std::process::Command;

fn main() {
    let object = format!("{}/watch.o", std::env::var("OUT_DIR").expect("cargo sets it"));
    println!("cargo:rerun-if-changed=watch.c");
    println!("cargo:rerun-if-changed=../../include/layerplan.h");
    let flags = ["-std=c11", "-Wall", "-Wextra", "-Werror", "-O1", "-fPIC", "-I../../include", "-c", "watch.c", "-o"];
    let mut gcc = Command::new("gcc");
    let status = gcc.args(flags).arg(&object).status().unwrap_or_else(|fault| panic!("{gcc:?}: {fault}"));
    assert!(status.success(), "{gcc:?}: {status}");
    println!("cargo:rustc-link-arg={object}");
}
