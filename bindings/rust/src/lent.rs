//! The parser's six functions over lent memory. What each does to every lent word and byte is in include/tolphaneap.h.

use crate::edition::{RefusedEdition, Which};
use crate::raw;
use crate::refusal::{Refusal, Refused};
use std::ops::Range;

/// What a parse did: the text's length, how many events stand in the words, and how often a line was tested.
#[derive(Debug, Clone, Copy, PartialEq, Eq)]
pub struct Parsed {
    pub length: usize,
    pub events: usize,
    pub looks: u64,
}

/// What another call did: how many events or bytes it took, and how many bytes or events it made.
#[derive(Debug, Clone, Copy, PartialEq, Eq)]
pub struct Moved {
    pub taken: usize,
    pub made: usize,
}

/// Which events have a line in a listing. The numbers are the header's.
#[derive(Debug, Clone, Copy, PartialEq, Eq, Hash)]
#[repr(u64)]
pub enum Mode {
    /// All but Blanklines.
    Short = 0,
    /// All.
    Full = 1,
}

/// The part that changed between two editions: which text it is of, and where it stands there. Equal editions have an empty part at
/// the end of the newer.
#[derive(Debug, Clone, PartialEq, Eq)]
pub struct Part {
    pub which: Which,
    pub span: Range<usize>,
}

/// A refusal's number as a refusal.
fn judged(number: u64, position: u64) -> Result<(), Refused> {
    match Refusal::of(number) {
        None => Ok(()),
        Some(refusal) => Err(Refused {
            refusal,
            position: position as usize,
        }),
    }
}

pub(crate) fn moved([number, position, count]: raw::Three) -> Result<Moved, Refused> {
    judged(number, position)?;
    Ok(Moved {
        taken: position as usize,
        made: count as usize,
    })
}

/// The words of a parse's answer.
fn answered(parsed: &Result<Parsed, Refused>) -> raw::Four {
    match parsed {
        Ok(done) => [0, done.length as u64, done.events as u64, done.looks],
        Err(refused) => [
            refused.refusal.number().into(),
            refused.position as u64,
            0,
            0,
        ],
    }
}

/// Parses a text, with two words lent for a line and eight for an event.
pub fn parse(text: &[u8], lines: &mut [u32], events: &mut [u32]) -> Result<Parsed, Refused> {
    let [number, position, count, looks] = raw::parse(text, lines, events);
    judged(number, position)?;
    Ok(Parsed {
        length: position as usize,
        events: count as usize,
        looks,
    })
}

/// Writes events as a stream of records.
pub fn write(events: &[u32], bytes: &mut [u8]) -> Result<Moved, Refused> {
    moved(raw::write(events, bytes))
}

/// Reads a stream of records as events.
pub fn read(bytes: &[u8], events: &mut [u32]) -> Result<Moved, Refused> {
    moved(raw::read(bytes, events))
}

/// Lists events as lines. An event without a line is judged and counted too, and needs no room.
pub fn list(mode: Mode, events: &[u32], out: &mut [u8]) -> Result<Moved, Refused> {
    moved(raw::list(mode as u64, events, out))
}

/// Lists a parse: its events and looks, or the line of its refusal, which is the same in both modes.
pub fn page(
    mode: Mode,
    parsed: &Result<Parsed, Refused>,
    events: &[u32],
    out: &mut [u8],
) -> Result<Moved, Refused> {
    moved(raw::page(mode as u64, &answered(parsed), events, out))
}

/// Finds the part that changed between two editions, a text and its event words each, with words lent in which both are parsed again:
/// as many as are enough for the one and the other. All of these are zero afterwards, whatever the answer.
pub fn changes(
    older: (&[u8], &[u32]),
    newer: (&[u8], &[u32]),
    lines: &mut [u32],
    events: &mut [u32],
) -> Result<Part, RefusedEdition> {
    let [number, position, which, start, end] = raw::changes(older, newer, lines, events);
    let which = Which::of(which);
    judged(number, position).map_err(|refused| RefusedEdition { which, refused })?;
    Ok(Part {
        which,
        span: start as usize..end as usize,
    })
}
