//! The judge: runs the Rust block parser on given inputs and writes what it answers.

mod cases;
mod chosen;
mod cli;
mod editions;
mod frames;
mod gen_editions;
mod gen_leaf;
mod gen_records;
mod gen_sets;
mod gen_text;
mod gen_words;
mod leaf;
mod listing;
mod options;
mod random;
mod records;
mod refuse;
mod row;
mod sets;
mod shim;
mod streams;
mod words;

// The Rust names these items by the crate's root.
use shim::{Alignment, CowStr, OrderedListNumbering, OrderedListStyle};

include!("files.rs");

fn main() -> std::process::ExitCode {
    cli::run()
}
