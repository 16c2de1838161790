//! Links the archives that tools/staticlib.sh makes, from the folder TOLPHANEAP_LIB or the project's target/staticlib.

use std::env;
use std::path::{Path, PathBuf};

/// Where the archives are when `TOLPHANEAP_LIB` does not say.
const DEFAULT_LIB: &str = "../../target/staticlib";

/// The parser, and what opens sets of attributes.
const ARCHIVES: [&str; 2] = ["tolphaneap", "tolphaneap_sets"];

fn main() {
    println!("cargo::rerun-if-env-changed=TOLPHANEAP_LIB");
    println!("cargo::rerun-if-changed=build.rs");
    let folder =
        env::var_os("TOLPHANEAP_LIB").map_or_else(|| PathBuf::from(DEFAULT_LIB), PathBuf::from);
    for name in ARCHIVES {
        link(&folder, name);
    }
    // The linker runs in another folder than this program.
    let folder = folder.canonicalize().unwrap_or(folder);
    println!("cargo::rustc-link-search=native={}", folder.display());
}

fn link(folder: &Path, name: &str) {
    let archive = folder.join(format!("lib{name}.a"));
    println!("cargo::rerun-if-changed={}", archive.display());
    if !archive.is_file() {
        stop(&format!(
            "no {}: run tools/staticlib.sh, or say in TOLPHANEAP_LIB which folder has it",
            archive.display()
        ));
    }
    println!("cargo::rustc-link-lib=static={name}");
}

/// Ends the build with a message.
fn stop(message: &str) -> ! {
    println!("cargo::error={message}");
    std::process::exit(1)
}
