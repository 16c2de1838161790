//! The Rust parser: its three files as they are, and what the judge has beside them.

#[path = "../../judge/src/shim.rs"]
pub mod shim;

/// Only the judge's edited copy calls this; its window on block.rs names it.
#[path = "../../judge/src/refuse.rs"]
#[allow(dead_code)]
pub mod refuse;

#[allow(dead_code)]
pub mod attr {
    include!(env!("BENCH_ATTR"));
}

#[allow(dead_code)]
pub mod lex {
    include!(env!("BENCH_LEX"));
}

/// The unchanged block parser, and its events as words.
#[allow(dead_code)]
pub mod block {
    include!(env!("BENCH_BLOCK"));

    pub mod probe {
        include!("../../judge/src/probe.rs");
    }
}
