// Our window on the private items of attr.rs: a child module of it.

use super::*;
use std::ops::Range;

/// The numbers of the kinds.
pub const CLASS: u64 = 1;
pub const ID: u64 = 2;
pub const PAIR: u64 = 3;
pub const COMMENT: u64 = 4;

/// What the parser adds to a set as it leaves a state.
pub enum Part {
    /// A kind's number, and the key's place: empty but for a pair's.
    Element(u64, Range<usize>),
    Piece(Range<usize>),
}

/// The bytes of a value, with its escapes.
pub fn raw<'v>(value: &'v AttributeValue) -> &'v str {
    &value.raw
}

/// What is added by leaving `state` at `to`, the state having begun at `from`.
fn left(state: State, from: usize, to: usize) -> Vec<Part> {
    use Part::{Element, Piece};
    match state {
        State::Class => vec![Element(CLASS, to..to), Piece(from..to)],
        State::Identifier => vec![Element(ID, to..to), Piece(from..to)],
        State::Key => vec![Element(PAIR, from..to)],
        State::CommentFirst => vec![Element(COMMENT, to..to)],
        State::Value | State::ValueContinued | State::Comment => vec![Piece(from..to)],
        // A run of newlines is one piece, the first of them.
        State::CommentNewline => vec![Piece(from..from + 1)],
        State::ValueQuoted if from + 1 < to => vec![Piece(from + 1..to)],
        _ => vec![],
    }
}

/// `Parser::parse` with places for texts: what is added, each with the byte then read; and where the text is no set.
pub fn parts(text: &str) -> (Vec<(usize, Part)>, Option<usize>) {
    let set = text
        .trim_end_matches(|c: char| c.is_ascii_whitespace())
        .as_bytes();
    let (mut parts, mut state, mut from) = (Vec::new(), State::Start, 0);
    for (at, byte) in set.iter().enumerate() {
        let next = state.step(*byte);
        if next == State::Invalid {
            return (parts, Some(at));
        }
        if next != state && state != State::ValueEscape && next != State::ValueEscape {
            parts.extend(left(state, from, at).into_iter().map(|part| (at, part)));
            from = at;
        }
        state = next;
        if state == State::Done {
            match set.get(at + 1) {
                Some(b'{') => state = State::Start,
                Some(_) => return (parts, Some(at + 1)),
                None => return (parts, None),
            }
        }
    }
    (parts, Some(set.len()))
}
