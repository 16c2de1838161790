//! Parses a text by the edited copy and checks the answer against the unchanged one.

use crate::frames::{readable, TextFrame};
use crate::refuse::{metered, Counts, Limits, Refusal};
use crate::{block, judged};

/// A text is at most this long.
pub const MAX_TEXT: usize = 16_777_215;

/// The limit on nesting and on sections.
pub const LIMIT: u8 = 32;

pub const WORDS_PER_LINE: usize = 2;
pub const WORDS_PER_EVENT: usize = 8;

pub struct Parsed {
    pub events: Vec<[u32; WORDS_PER_EVENT]>,
    pub looks: u64,
    /// What the looks may be at most (H18).
    pub bound: u64,
}

/// Lines end after a newline or at the text's end.
pub fn line_count(text: &[u8]) -> usize {
    let newlines = text.iter().filter(|b| **b == b'\n').count();
    newlines + usize::from(text.last().is_some_and(|b| *b != b'\n'))
}

pub fn parsed(frame: &TextFrame, rust_raw: bool) -> Result<Parsed, Refusal> {
    let limits = Limits {
        nesting: frame.nesting.into(),
        sections: frame.sections.into(),
        events: frame.event_words as usize / WORDS_PER_EVENT,
        rust_raw,
    };
    walked(&frame.text, frame.line_words as usize, limits).0
}

/// The same for a text without its frame, and what was counted.
pub fn walked(text: &[u8], line_words: usize, limits: Limits) -> (Result<Parsed, Refusal>, Counts) {
    let lines = line_count(text);
    let refused = |number| {
        let position = 0;
        (Err(Refusal { number, position }), Counts::default())
    };
    if text.len() > MAX_TEXT {
        return refused(1);
    }
    if line_words < WORDS_PER_LINE * lines {
        return refused(2);
    }
    let text = &readable(text);
    let (events, counts) = metered(limits, || judged::probe::words(text));
    let parsed = events.map(|events| {
        check(text, &events, !limits.rust_raw && counts.raw_met);
        let bound = 3 * lines as u64 * (counts.deepest as u64 + 1);
        assert!(counts.looks <= bound, "the looks pass their bound {bound}");
        let looks = counts.looks;
        Parsed {
            events,
            looks,
            bound,
        }
    });
    (parsed, counts)
}

/// Asserts that the edits change no event. Where the answer's raw code is read by I7 and not as
/// in the Rust, the edited copy is asked once more for the comparison.
fn check(text: &str, events: &[[u32; WORDS_PER_EVENT]], raw_differs: bool) {
    let unchanged = block::probe::words(text);
    if raw_differs {
        let (again, _) = metered(Limits::NONE, || judged::probe::words(text));
        assert!(again == Ok(unchanged), "the edited copy gives other events");
    } else {
        assert!(events == unchanged, "the edited copy gives other events");
    }
}

/// What a parse without a limit on events counts, up to its refusal if it has one.
pub fn counted(text: &[u8], nesting: u8, sections: u8) -> Counts {
    let limits = Limits {
        nesting: nesting.into(),
        sections: sections.into(),
        events: usize::MAX,
        rust_raw: false,
    };
    metered(limits, || judged::probe::words(&readable(text))).1
}
