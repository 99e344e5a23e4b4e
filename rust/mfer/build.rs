//! Finds the static library: in the folder that MFER_LIB_DIR names, else where the repository's
//! build puts it.

use std::env;
use std::path::PathBuf;

fn main() {
    println!("cargo:rerun-if-env-changed=MFER_LIB_DIR");
    let folder = match env::var_os("MFER_LIB_DIR") {
        Some(folder) => PathBuf::from(folder),
        None => PathBuf::from(env::var_os("CARGO_MANIFEST_DIR").expect("set by cargo"))
            .join("../../target/staticlib"),
    };
    let archive = folder.join("libmfer.a");
    println!("cargo:rerun-if-changed={}", archive.display());
    let Ok(archive) = archive.canonicalize() else {
        panic!(
            "{} is not there: build it with `./build archive`, or name its folder in MFER_LIB_DIR",
            archive.display()
        );
    };
    let folder = archive.parent().expect("a file is in a folder");
    println!("cargo:rustc-link-search=native={}", folder.display());
    println!("cargo:rustc-link-lib=static=mfer");
}
