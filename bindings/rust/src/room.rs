//! How much to lend, as include/tolphaneap.h and include/tolphaneap_sets.h have it.

/// The words of a line and of an event.
pub const LINE_WORDS: usize = 2;
pub const EVENT_WORDS: usize = 8;

/// The fewest and the most bytes of a record, and the most of a listing's line and of a text.
pub const LEAST_RECORD: usize = 7;
pub const MOST_RECORD: usize = 17;
pub const MOST_ENTRY: usize = 55;
pub const MOST_TEXT: usize = 16_777_215;

/// The line words that are enough for a text of so many bytes, which has at most as many lines.
pub fn lines(bytes: usize) -> usize {
    LINE_WORDS * bytes.min(MOST_TEXT)
}

/// The event words that are enough for a text of so many bytes; most texts need far fewer.
pub fn events(bytes: usize) -> usize {
    EVENT_WORDS * (3 * bytes.min(MOST_TEXT) + 6)
}

/// The bytes that are enough for the stream of so many events.
pub fn stream(events: usize) -> usize {
    events.saturating_mul(MOST_RECORD)
}

/// The event words that are enough for a stream of so many bytes.
pub fn read(bytes: usize) -> usize {
    (bytes / LEAST_RECORD).saturating_mul(EVENT_WORDS)
}

/// The bytes that are enough for the listing of so many events in either mode, with its last line.
pub fn listing(events: usize) -> usize {
    events.saturating_add(1).saturating_mul(MOST_ENTRY)
}

/// The words of an element of a set, and of a piece of its value.
pub const ELEMENT_WORDS: usize = 5;
pub const PIECE_WORDS: usize = 2;

/// The element words that are enough for a set of so many bytes: an element takes at least two.
pub fn elements(bytes: usize) -> usize {
    (bytes / 2).saturating_mul(ELEMENT_WORDS)
}

/// The piece words that are enough for a set of so many bytes; most sets need far fewer.
pub fn pieces(bytes: usize) -> usize {
    bytes.saturating_mul(PIECE_WORDS)
}

/// The words of `places`, and of `spare`, that are enough for a set of so many bytes.
pub fn places(bytes: usize) -> usize {
    bytes / 2
}

/// The bytes that are enough for any value of a set of so many bytes.
pub fn value(bytes: usize) -> usize {
    bytes
}
