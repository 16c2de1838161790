//! Our functions by their C interface, and what is read off the events.

// As in the header: words lent for a line and for an event, most bytes of a record and of a line of
// the listing.
pub const LINE_WORDS: usize = 2;
pub const EVENT_WORDS: usize = 8;
pub const RECORD_BYTES: usize = 17;
pub const ENTRY_BYTES: usize = 55;

/// The listing with a line for every event, as in the header.
pub const FULL: u64 = 1;

/// The event words are full.
const NO_ROOM: u64 = 6;

/// The calls of the Rust binding: the bench has no declarations of its own.
#[path = "../../../bindings/rust/src/raw.rs"]
#[allow(dead_code)]
mod raw;
pub use raw::{changes, list, read, write};

pub fn parse(text: &str, lines: &mut [u32], events: &mut [u32]) -> [u64; 4] {
    raw::parse(text.as_bytes(), lines, events)
}

/// Parses in new buffers with room for so many events, or for as many more as it takes: the buffers and the answer.
pub fn parse_in_new(text: &str, events: usize) -> ([Vec<u32>; 2], [u64; 4]) {
    let mut lines = vec![0; LINE_WORDS * line_count(text)];
    let mut events = vec![0; EVENT_WORDS * events];
    let mut answer = parse(text, &mut lines, &mut events);
    while answer[0] == NO_ROOM {
        events.resize(events.len() / 4 * 5 + EVENT_WORDS, 0);
        answer = parse(text, &mut lines, &mut events);
    }
    ([lines, events], answer)
}

/// A line ends after its newline or at the text's end.
pub fn line_count(text: &str) -> usize {
    let newlines = text.bytes().filter(|byte| *byte == b'\n').count();
    newlines + usize::from(!text.is_empty() && !text.ends_with('\n'))
}

/// Most containers open at once: quotes, divs, the three kinds of item, footnotes.
pub fn deepest(events: &[u32]) -> usize {
    const CONTAINERS: [u32; 6] = [2, 3, 8, 9, 10, 11];
    let (mut open, mut deepest) = (0, 0);
    for event in events.chunks_exact(EVENT_WORDS) {
        match event[0] {
            1 if CONTAINERS.contains(&event[1]) => open += 1,
            2 if CONTAINERS.contains(&event[1]) => open -= 1,
            _ => {}
        }
        deepest = deepest.max(open);
    }
    deepest
}
