//! Finds the static libraries: in BOARD_LIB_DIR if that is set, else where `.ci/libraries` writes them.

use std::env;
use std::path::PathBuf;

fn main() {
    println!("cargo:rerun-if-changed=build.rs");
    println!("cargo:rerun-if-env-changed=BOARD_LIB_DIR");
    let dir = match env::var_os("BOARD_LIB_DIR") {
        Some(dir) => PathBuf::from(dir),
        None => PathBuf::from(env::var_os("CARGO_MANIFEST_DIR").unwrap()).join("../target/staticlib"),
    };
    for name in ["board", "shift", "settings"] {
        let lib = dir.join(format!("lib{name}.a"));
        println!("cargo:rerun-if-changed={}", lib.display());
        if !lib.is_file() {
            eprintln!("\n{} is not there.\nRun `.ci/libraries {name}` in the repository's root, or set BOARD_LIB_DIR to the folder that has it.\n", lib.display());
            std::process::exit(1);
        }
        println!("cargo:rustc-link-lib=static={name}");
    }
    let dir = dir.canonicalize().unwrap_or(dir);
    // For tests/header.rs.
    println!("cargo:rustc-env=BOARD_LIBRARIES={}", dir.display());
    println!("cargo:rustc-link-search=native={}", dir.display());
}
