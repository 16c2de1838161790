//! Texts that are chosen and not drawn: those of texts.txt (each difference, each kind, the W cases) and those at a limit.

use crate::frames::TextFrame;
use crate::gen_words::{fitted, plain};
use crate::options::unescaped;
use crate::words::LIMIT;

const TEXTS: &str = include_str!("../texts.txt");

/// The texts of texts.txt, a line each, with escapes.
pub fn texts() -> impl Iterator<Item = Vec<u8>> {
    let lines = TEXTS.lines();
    lines.map(|line| unescaped(line).expect("escapes of texts.txt"))
}

/// Texts at a limit and one past it.
fn limits() -> Vec<Vec<u8>> {
    let limit = usize::from(LIMIT);
    let sections = |n: usize| (1..=n).map(|level| "#".repeat(level) + " a\n").collect();
    vec![
        "#".repeat(65_535) + "\n",
        "#".repeat(65_536),
        "> ".repeat(limit) + "a\n",
        "> ".repeat(limit + 1) + "a\n",
        "- ".repeat(limit) + "a\n",
        "- ".repeat(limit + 1) + "a\n",
        sections(limit),
        sections(limit + 1),
        "i".repeat(13) + ". a\n",
        "i".repeat(14) + ". a\n",
    ]
    .into_iter()
    .map(String::into_bytes)
    .collect()
}

/// Each text with the words that it needs; each of texts.txt also with a line word too few, with room for one event less,
/// and within limits of 1.
pub fn frames() -> impl Iterator<Item = TextFrame> {
    let short = texts().flat_map(|text| {
        let whole = plain(&text);
        let line_words = whole.line_words.saturating_sub(1);
        let event_words = whole.event_words.saturating_sub(1);
        [
            TextFrame {
                line_words,
                ..whole.clone()
            },
            TextFrame {
                event_words,
                ..whole.clone()
            },
            fitted(text, 1, 1),
            whole,
        ]
    });
    short.chain(limits().into_iter().map(|text| plain(&text)))
}
