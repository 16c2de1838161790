//! Finds the Rust sources as the judge does, and the static library.

#[path = "../judge/build.rs"]
mod judge;

use std::env;
use std::path::PathBuf;

fn main() {
    judge::main();
    println!("cargo::rerun-if-changed=../judge/build.rs");
    let here = PathBuf::from(env::var_os("CARGO_MANIFEST_DIR").expect("cargo sets it"));
    let folder = here.join("../../target/staticlib");
    let archive = folder.join("libtolphaneap.a");
    if !archive.is_file() {
        println!(
            "cargo::error=no {}: run tools/staticlib.sh",
            archive.display()
        );
        std::process::exit(1);
    }
    println!("cargo::rerun-if-changed={}", archive.display());
    println!("cargo::rustc-link-search=native={}", folder.display());
    println!("cargo::rustc-link-lib=static=tolphaneap");
}
