//! Finds the Rust sources and writes the edited copy of block.rs to OUT_DIR.

use std::env;
use std::fs;
use std::path::{Path, PathBuf};

/// Where the sources are when `JUDGE_SRC` does not say.
const DEFAULT_SRC: &str = "../../../shared/docs/src";

/// The edits of block.rs: old text, how often it occurs, new text.
const EDITS: &[(&str, usize, &str)] = &[
    // A look to begin a block, and one for each line tested to continue it.
    (
        "let IdentifiedBlock { mut kind, span } =",
        1,
        "crate::refuse::look(); let IdentifiedBlock { mut kind, span } =",
    ),
    (
        "kind.continues(l)",
        1,
        "{ crate::refuse::look(); kind.continues(l) }",
    ),
    // A measured block is met before anything is done with it: refusals 5, 3, 4.
    (
        "let (lines, line_count) = if matches!(",
        1,
        "probe::meet(&kind, span_start.start, top_level, &self.open_sections);
        let (lines, line_count) = if matches!(",
    ),
    (
        "debug_assert_ne!(line_count, 0);",
        1,
        "crate::refuse::finish(); debug_assert_ne!(line_count, 0);",
    ),
    // After the last block the position is the text's length.
    (
        "while let Some(l) = self.open_lists.pop()",
        1,
        "crate::refuse::close(self.src.len());
        while let Some(l) = self.open_lists.pop()",
    ),
    // Every event needs room: refusal 6.
    (
        "self.events.push(",
        4,
        "crate::refuse::room(&mut self.events).push(",
    ),
    (
        "self.events.insert(",
        1,
        "crate::refuse::room(&mut self.events); self.events.insert(",
    ),
    // Whether raw code loses the end of its last line is asked at run time.
    (
        "spec.starts_with('=')",
        1,
        "crate::refuse::trims_raw(spec.starts_with('='))",
    ),
];

pub fn main() {
    println!("cargo::rerun-if-env-changed=JUDGE_SRC");
    println!("cargo::rerun-if-changed=build.rs");
    let folder = env::var_os("JUDGE_SRC").map_or_else(|| PathBuf::from(DEFAULT_SRC), PathBuf::from);
    let folder = folder.canonicalize().unwrap_or_else(|e| {
        let folder = folder.display();
        stop(&format!(
            "no folder {folder} ({e}): JUDGE_SRC says where block.rs, attr.rs and lex.rs are"
        ))
    });
    for name in ["block", "attr", "lex"] {
        let path = folder.join(name).with_extension("rs");
        println!("cargo::rerun-if-changed={}", path.display());
        // The unchanged files are included from where they are.
        println!(
            "cargo::rustc-env=JUDGE_{}={}",
            name.to_uppercase(),
            path.display()
        );
    }
    let out = PathBuf::from(env::var_os("OUT_DIR").expect("cargo sets OUT_DIR"));
    fs::write(out.join("judged.rs"), edited(&folder.join("block.rs")))
        .expect("OUT_DIR is writable");
}

/// The text of block.rs with every edit made.
fn edited(path: &Path) -> String {
    let mut text = fs::read_to_string(path)
        .unwrap_or_else(|e| stop(&format!("cannot read {}: {e}", path.display())));
    for (old, times, new) in EDITS {
        let found = text.matches(old).count();
        if found != *times {
            stop(&format!(
                "edit failed: `{old}` occurs {found} times in block.rs, not {times}"
            ));
        }
        text = text.replace(old, new);
    }
    text
}

/// Ends the build with a message.
fn stop(message: &str) -> ! {
    println!("cargo::error={message}");
    std::process::exit(1)
}
