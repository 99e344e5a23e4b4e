//! Compiles what is in C: the plain loop, and the walk over a file.

use std::env;
use std::path::PathBuf;
use std::process::Command;

fn main() {
    println!("cargo:rerun-if-changed=build.rs");
    println!("cargo:rerun-if-changed=../../include/mfer.h");
    for name in ["widen", "walk"] {
        compile(name);
    }
}

fn compile(name: &str) {
    let source = format!("src/{name}.c");
    println!("cargo:rerun-if-changed={source}");
    let folder = env::var_os("OUT_DIR").expect("set by cargo");
    let object = PathBuf::from(folder).join(name).with_extension("o");
    let status = Command::new("cc")
        .args(["-O3", "-falign-functions=64", "-falign-loops=64"])
        .args(["-I", "../../include", "-c", &source, "-o"])
        .arg(&object)
        .status();
    assert!(status.is_ok_and(|status| status.success()), "cc failed");
    println!("cargo:rustc-link-arg={}", object.display());
}
