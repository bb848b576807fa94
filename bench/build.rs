//! Finds the archive of the measured inner functions: in BOARD_LIB_DIR if that is set, else where `.ci/libraries probe` writes it.

use std::env;
use std::path::PathBuf;

fn main() {
    println!("cargo:rerun-if-changed=build.rs");
    println!("cargo:rerun-if-env-changed=BOARD_LIB_DIR");
    let dir = match env::var_os("BOARD_LIB_DIR") {
        Some(dir) => PathBuf::from(dir),
        None => PathBuf::from(env::var_os("CARGO_MANIFEST_DIR").unwrap()).join("../target/staticlib"),
    };
    let lib = dir.join("libprobe.a");
    println!("cargo:rerun-if-changed={}", lib.display());
    if !lib.is_file() {
        eprintln!("\n{} is not there.\nRun `.ci/libraries probe` in the repository's root, or set BOARD_LIB_DIR to the folder that has libprobe.a.\n", lib.display());
        std::process::exit(1);
    }
    let dir = dir.canonicalize().unwrap_or(dir);
    println!("cargo:rustc-link-search=native={}", dir.display());
    println!("cargo:rustc-link-lib=static=probe");
}
