//! A text at one size: both parsers on it, checked against each other and timed in turn.

use crate::block;
use crate::ours::{self, EVENT_WORDS};
use crate::texts::Text;
use crate::timing::{Best, Fresh};
use std::hint::black_box;

pub const MEGABYTE: usize = 1_000_000;
pub const SIZES: [usize; 2] = [1, 16];

/// Events lent beyond those that are given: a separator row takes room until it is dropped.
pub const SPARE_EVENTS: usize = 64;

/// A text, what was counted in it, the buffers that ours is lent and the best times.
pub struct Case {
    /// The text over and over: see `run`.
    copies: String,
    len: usize,
    pub events: usize,
    pub lines: usize,
    pub deepest: usize,
    pub looks: u64,
    line_words: Vec<u32>,
    event_words: Vec<u32>,
    /// Buffers of its own for each copy: as much memory as a large text takes.
    spread: Vec<[Vec<u32>; 2]>,
    best: [Best; 4],
}

impl Case {
    /// Parses the text by both and stops unless they agree on every word of every event.
    /// This writes the lent buffers once.
    pub fn new(text: &Text, megabytes: usize, copies: usize) -> Self {
        let what = format!("{}, {megabytes} MB", text.name);
        let len = megabytes * MEGABYTE;
        let text = (text.make)(len);
        assert_eq!(text.len(), len, "{what}");
        let expected = block::probe::words(&text);
        let lines = ours::line_count(&text);
        let room = expected.len() + SPARE_EVENTS;
        let ([line_words, event_words], answer) = ours::parse_in_new(&text, room);
        let [refusal, position, events, looks] = answer;
        assert_eq!(refusal, 0, "{what}: refused {refusal} at {position}");
        let events = events as usize;
        let found = &event_words[..EVENT_WORDS * events];
        let pairs = found.chunks_exact(EVENT_WORDS).zip(&expected);
        for (index, (ours, rust)) in pairs.enumerate() {
            assert_eq!(ours, rust, "{what}: event {index}, ours and the Rust's");
        }
        assert_eq!(events, expected.len(), "{what}: the number of events");
        let deepest = ours::deepest(found);
        let own = |_| [&line_words, &event_words].map(|words| vec![1; words.len()]);
        let case = Case {
            spread: (0..copies).map(own).collect(),
            copies: text.repeat(copies),
            len,
            events,
            lines,
            deepest,
            looks,
            line_words,
            event_words,
            best: [Best::NONE; 4],
        };
        assert!(looks <= case.bound(), "{what}: {looks} looks");
        case
    }

    pub fn bound(&self) -> u64 {
        3 * self.lines as u64 * (self.deepest as u64 + 1)
    }

    /// The words of all events.
    pub fn words(&self) -> &[u32] {
        &self.event_words[..EVENT_WORDS * self.events]
    }

    /// Times the Rust, ours, ours with buffers of its own for each copy and ours with fresh ones, each
    /// once. Who is first changes with the round, since the others find the text in a cache. A small
    /// text is parsed in many copies, one after the other: so as many bytes come from memory, and the
    /// clock runs as long, as at a large one.
    pub fn run(&mut self, round: usize) {
        let len = self.len;
        let copies = black_box(self.copies.as_str());
        let parts = || (0..copies.len() / len).map(|n| &copies[n * len..][..len]);
        let (line_words, event_words) = (&mut self.line_words, &mut self.event_words);
        let (lines_len, events_len) = (line_words.len(), event_words.len());
        for turn in round..round + 4 {
            let best = &mut self.best[turn % 4];
            match turn % 4 {
                0 => best.time(|| {
                    for text in parts() {
                        drop(black_box(block::parse(text)));
                    }
                }),
                1 => best.time(|| {
                    for text in parts() {
                        black_box(ours::parse(text, line_words, event_words));
                    }
                }),
                2 => best.time(|| {
                    for (text, [lines, events]) in parts().zip(&mut self.spread) {
                        black_box(ours::parse(text, lines, events));
                    }
                }),
                _ => best.time(|| {
                    for text in parts() {
                        let mut lines = Fresh::new(lines_len);
                        let mut events = Fresh::new(events_len);
                        black_box(ours::parse(text, lines.words(), events.words()));
                    }
                }),
            }
        }
    }

    /// Nanoseconds a byte: the Rust, ours, ours with a copy's own buffers, ours with fresh ones.
    pub fn ns_per_byte(&self) -> [f64; 4] {
        self.best.map(|best| best.0 / self.copies.len() as f64)
    }
}
