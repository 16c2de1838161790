// The Rust's files, included at the root of a crate, since they name their items by it: `include!` this there.

#[allow(dead_code)]
mod attr {
    include!(env!("JUDGE_ATTR"));

    pub mod probe {
        include!("set_probe.rs");
    }
}

#[allow(dead_code)]
mod lex {
    include!(env!("JUDGE_LEX"));
}

/// The unchanged block parser.
#[allow(dead_code)]
mod block {
    include!(env!("JUDGE_BLOCK"));

    pub mod probe {
        include!("probe.rs");
    }
}

/// The block parser with the edits of build.rs.
#[allow(dead_code)]
mod judged {
    include!(concat!(env!("OUT_DIR"), "/judged.rs"));

    pub mod probe {
        include!("probe.rs");
    }
}
