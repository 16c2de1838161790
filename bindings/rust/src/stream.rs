//! The records of a stream one by one.

use crate::event::Event;
use crate::page::Page;
use crate::refusal::Refused;
use crate::room::{EVENT_WORDS, LEAST_RECORD};
use std::ops::Range;

/// A record: the bytes of the stream that it takes, and its event.
#[derive(Debug, Clone, PartialEq, Eq)]
pub struct Record {
    pub bytes: Range<usize>,
    pub event: Event,
}

/// The records of a stream that the reader accepts.
#[derive(Debug, Clone)]
pub struct Records {
    page: Page,
    next: usize,
    position: usize,
}

/// The bytes of a record: kind, start, end, and the body of its role and node.
fn size(role: u32, node: u32) -> usize {
    let body = match (role, node) {
        (1 | 2, 3 | 11 | 16 | 20 | 21) => 6,
        (1 | 2, 4 | 6) => 2,
        (1 | 2, 5) => 10,
        (1 | 2, 7 | 9 | 13 | 18) => 1,
        (1 | 2, 14) => 3,
        _ => 0,
    };
    LEAST_RECORD + body
}

impl Records {
    /// Judges the whole stream first: what is handed out is one well nested Document.
    pub fn new(stream: &[u8]) -> Result<Self, Refused> {
        Ok(Self {
            page: Page::read(stream)?,
            next: 0,
            position: 0,
        })
    }
}

impl Iterator for Records {
    type Item = Record;

    fn next(&mut self) -> Option<Record> {
        let words = self.page.words().get(self.next..)?.first_chunk()?;
        let event = Event::of(words)?;
        let bytes = self.position..self.position + size(words[0], words[1]);
        self.next += EVENT_WORDS;
        self.position = bytes.end;
        Some(Record { bytes, event })
    }
}
