//! Finds the compiled engine and links it.

use std::path::PathBuf;
use std::{env, process};

const ARCHIVE: &str = "libcontroller_c.a";

fn main() {
    println!("cargo:rerun-if-env-changed=CONTROLLER_LIB_DIR");
    let dir = directory();
    let archive = dir.join(ARCHIVE);
    println!("cargo:rerun-if-changed={}", archive.display());
    if !archive.is_file() {
        eprintln!("There is no {}.", archive.display());
        eprintln!("Run `rt lib` in the folder crates/controller_c, or name");
        eprintln!("the directory that has {ARCHIVE} in CONTROLLER_LIB_DIR.");
        process::exit(1);
    }
    println!("cargo:rustc-link-search=native={}", dir.display());
    println!("cargo:rustc-link-lib=static=controller_c");
}

/// CONTROLLER_LIB_DIR, else where rt writes it.
fn directory() -> PathBuf {
    match env::var_os("CONTROLLER_LIB_DIR") {
        Some(dir) => PathBuf::from(dir),
        None => PathBuf::from(env!("CARGO_MANIFEST_DIR")).join("../../crates/controller_c/out"),
    }
}
