//! Compares the static library with the judge's reading in one process, on very many inputs.

mod archive;
mod check;
mod cli;
mod draw;
mod guard;
mod lent;
mod run;
mod shrink;

#[path = "../../judge/src/chosen.rs"]
#[allow(dead_code)]
mod chosen;
#[path = "../../judge/src/frames.rs"]
#[allow(dead_code)]
mod frames;
#[path = "../../judge/src/gen_records.rs"]
#[allow(dead_code)]
mod gen_records;
#[path = "../../judge/src/gen_text.rs"]
#[allow(dead_code)]
mod gen_text;
#[path = "../../judge/src/gen_words.rs"]
#[allow(dead_code)]
mod gen_words;
#[path = "../../judge/src/listing.rs"]
#[allow(dead_code)]
mod listing;
#[path = "../../judge/src/options.rs"]
#[allow(dead_code)]
mod options;
#[path = "../../judge/src/random.rs"]
#[allow(dead_code)]
mod random;
#[path = "../../judge/src/records.rs"]
#[allow(dead_code)]
mod records;
#[path = "../../judge/src/refuse.rs"]
#[allow(dead_code)]
mod refuse;
#[path = "../../judge/src/shim.rs"]
#[allow(dead_code)]
mod shim;
#[path = "../../judge/src/words.rs"]
#[allow(dead_code)]
mod words;

// The Rust names these items by the crate's root.
use shim::{Alignment, CowStr, OrderedListNumbering, OrderedListStyle};

include!("../../judge/src/files.rs");

fn main() -> std::process::ExitCode {
    cli::run()
}
