//! Answers frames of two editions: what changed, in whole top-level blocks, by its own reading of RULES Z over the Rust's events. No Rust of
//! jotdown compares editions.

use crate::block::probe::measured;
use crate::frames::{readable, Edition, PairFrame, TextFrame};
use crate::refuse::Refusal;
use crate::streams::sum;
use crate::words::{parsed, LIMIT, MAX_TEXT, WORDS_PER_EVENT};

type Event = [u32; WORDS_PER_EVENT];

const STALE: Event = [0; WORDS_PER_EVENT];

/// What a block at the top may stand in: Document and Sections.
const AROUND: [u32; 2] = [1, 14];

/// The number of an edition in an answer.
const OLDER: usize = 1;
const NEWER: usize = 2;

/// The limits of a frame, or the usual ones: bytes, nesting and sections. Over 32 the last two count as 32.
fn limits(frame: &PairFrame) -> (usize, u8, u8) {
    let capped = |limit: u16| limit.min(LIMIT.into()) as u8;
    match frame.op {
        b'w' => (
            frame.limit.into(),
            capped(frame.nesting),
            capped(frame.sections),
        ),
        _ => (MAX_TEXT, LIMIT, LIMIT),
    }
}

/// The events of an edition, parsed again in the words that the frame lends.
fn again(frame: &PairFrame, text: &[u8]) -> Result<Vec<Event>, Refusal> {
    let (limit, nesting, sections) = limits(frame);
    if text.len() > limit {
        let (number, position) = (1, 0);
        return Err(Refusal { number, position });
    }
    let lent = TextFrame {
        line_words: frame.line_words.into(),
        event_words: frame.event_words.into(),
        nesting,
        sections,
        text: text.to_vec(),
    };
    parsed(&lent, false).map(|parsed| parsed.events)
}

/// Refuses events that are not those of the parse, Stale ones aside on both sides.
fn held(given: &[u32], events: &[Event]) -> Result<(), Refusal> {
    let refused = |position| {
        let number = 15;
        Err(Refusal { number, position })
    };
    let given = given.chunks_exact(WORDS_PER_EVENT);
    let whole = given.len();
    let mut to_come = events.iter().filter(|event| **event != STALE);
    for (place, event) in given.enumerate() {
        if event != STALE && to_come.next().map(|next| &next[..]) != Some(event) {
            return refused(place);
        }
    }
    match to_come.next() {
        Some(_) => refused(whole),
        None => Ok(()),
    }
}

/// The lines that blocks at the top begin at, counted from 0, by a stack of what is open.
fn first_lines(text: &[u8], events: &[Event]) -> Vec<usize> {
    let line = |place: u32| {
        text[..place as usize]
            .iter()
            .filter(|b| **b == b'\n')
            .count()
    };
    let (mut open, mut firsts) = (Vec::new(), Vec::new());
    for [role, node, start, ..] in events {
        let at_top = open.iter().all(|node| AROUND.contains(node));
        match role {
            1 => {
                if at_top && !AROUND.contains(node) {
                    firsts.push(line(*start));
                }
                open.push(*node);
            }
            2 => assert_eq!(open.pop(), Some(*node), "an Exit closes what is open"),
            4 if at_top => firsts.push(line(*start)),
            _ => {}
        }
    }
    assert!(open.is_empty(), "all is closed");
    firsts
}

/// Asserts that the Rust, measuring one block after the other, begins one at each of these lines, and at others only items of a list.
fn check(text: &str, firsts: &[usize]) {
    let lines: Vec<&str> = text.split_inclusive('\n').collect();
    let (mut line, mut met) = (0, 0);
    while let Some((kind, count, given_back)) = measured(&lines[line..].concat()) {
        if firsts.contains(&line) {
            met += 1;
        } else {
            assert!(kind.starts_with("9 "), "line {line} begins no block");
        }
        line += count - given_back;
    }
    assert_eq!(met, firsts.len(), "a block begins inside another");
}

/// The blocks at the top: the lines from the first of each to the first of the next.
fn blocks(text: &[u8], events: &[Event]) -> Vec<Vec<u8>> {
    let lines: Vec<&[u8]> = text.split_inclusive(|b| *b == b'\n').collect();
    let firsts = first_lines(text, events);
    check(&readable(text), &firsts);
    let ends = firsts.iter().skip(1).copied().chain([lines.len()]);
    let blocks = firsts.iter().zip(ends).map(|(s, e)| lines[*s..e].concat());
    let blocks: Vec<Vec<u8>> = blocks.collect();
    assert!(blocks.concat() == text, "the blocks are not the text");
    blocks
}

/// The blocks of an edition that is not refused.
fn taken(frame: &PairFrame, edition: &Edition) -> Result<Vec<Vec<u8>>, Refusal> {
    let events = again(frame, &edition.text)?;
    held(&edition.given, &events)?;
    Ok(blocks(&edition.text, &events))
}

/// How many pairs are equal before the first that is not.
fn run<T: PartialEq>(pairs: impl Iterator<Item = (T, T)>) -> usize {
    pairs.take_while(|(one, other)| one == other).count()
}

/// Which text the part is of, and its bytes.
type Part = (usize, usize, usize);

fn changed(older: &[Vec<u8>], newer: &[Vec<u8>]) -> Part {
    let front = run(older.iter().zip(newer));
    let (old_rest, new_rest) = (&older[front..], &newer[front..]);
    let back = run(old_rest.iter().rev().zip(new_rest.iter().rev()));
    let len = |blocks: &[Vec<u8>]| blocks.concat().len();
    let part = |which, all: &[Vec<u8>], rest: &[Vec<u8>]| {
        let part = len(&rest[..rest.len() - back]);
        let start = len(&all[..front]);
        assert_eq!(start + part + len(&rest[rest.len() - back..]), len(all));
        (which, start, start + part)
    };
    if new_rest.len() == back && old_rest.len() > back {
        part(OLDER, older, old_rest)
    } else {
        part(NEWER, newer, new_rest)
    }
}

/// The refusals of the older edition come first.
fn compared(frame: &PairFrame) -> Result<Part, (usize, Refusal)> {
    let older = taken(frame, &frame.older).map_err(|refusal| (OLDER, refusal))?;
    let newer = taken(frame, &frame.newer).map_err(|refusal| (NEWER, refusal))?;
    Ok(changed(&older, &newer))
}

/// A part's length and sum.
fn measures(part: &[u8]) -> String {
    let sum = sum(0, part.iter().map(|byte| u64::from(*byte)));
    format!("{} {sum}", part.len())
}

/// Number, position, text, start and end; then length and sum of the part, of the part as one of the older text and as one of the newer.
pub fn answer(frame: &PairFrame) -> String {
    let ((number, position), (which, start, end)) = match compared(frame) {
        Ok(part) => ((0, 0), part),
        Err((which, refusal)) => ((refusal.number, refusal.position), (which, 0, 0)),
    };
    let of = |edition: usize, text: &[u8]| match edition == which {
        true => text[start..end].to_vec(),
        false => Vec::new(),
    };
    let older = of(OLDER, &frame.older.text);
    let newer = of(NEWER, &frame.newer.text);
    let parts = [&[&older[..], &newer].concat(), &older, &newer].map(|part| measures(part));
    format!(
        "{number} {position} {which} {start} {end} {}",
        parts.join(" ")
    )
}
