//! Finds the Rust sources and the static libraries.

use std::env;
use std::path::{Path, PathBuf};

/// Where the sources are when `JUDGE_SRC` does not say.
const DEFAULT_SRC: &str = "../../../shared/docs/src";

fn main() {
    let here = PathBuf::from(env::var("CARGO_MANIFEST_DIR").expect("cargo sets it"));
    let folder = env::var("JUDGE_SRC").unwrap_or_else(|_| DEFAULT_SRC.to_string());
    let folder = here.join(folder);
    for (name, file) in [
        ("BENCH_BLOCK", "block.rs"),
        ("BENCH_ATTR", "attr.rs"),
        ("BENCH_LEX", "lex.rs"),
    ] {
        let path: &Path = &folder.join(file);
        assert!(path.is_file(), "{} is missing", path.display());
        println!("cargo:rustc-env={name}={}", path.display());
        println!("cargo:rerun-if-changed={}", path.display());
    }
    let folder = here.join("../../target/staticlib");
    println!("cargo:rustc-link-search=native={}", folder.display());
    for name in ["tolphaneap", "tolphaneap_sets"] {
        let archive = folder.join(format!("lib{name}.a"));
        assert!(
            archive.is_file(),
            "no target/staticlib/lib{name}.a: run tools/staticlib.sh"
        );
        println!("cargo:rerun-if-changed={}", archive.display());
        println!("cargo:rustc-link-lib=static={name}");
    }
    println!("cargo:rerun-if-env-changed=JUDGE_SRC");
}
