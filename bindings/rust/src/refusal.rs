//! What is refused, and where.

use std::error::Error;
use std::fmt;

/// Why a text, a list of events, a stream, a set of attributes or an edition is refused. The order is that of the numbers, from 1 on.
#[derive(Debug, Clone, Copy, PartialEq, Eq, Hash)]
pub enum Refusal {
    TextTooLong,
    LinesFull,
    NestedTooDeep,
    TooManySections,
    HeadingTooLong,
    EventsFull,
    /// A fault of the parser: it is proved never to come.
    Fault,
    BytesFull,
    CutShort,
    NotListed,
    OutOfRange,
    BadNesting,
    ElementsFull,
    NotASet,
    /// The events given with a text are not those of its parse.
    Stray,
}

impl Refusal {
    /// All of them, number 1 first.
    pub const ALL: [Self; 15] = [
        Self::TextTooLong,
        Self::LinesFull,
        Self::NestedTooDeep,
        Self::TooManySections,
        Self::HeadingTooLong,
        Self::EventsFull,
        Self::Fault,
        Self::BytesFull,
        Self::CutShort,
        Self::NotListed,
        Self::OutOfRange,
        Self::BadNesting,
        Self::ElementsFull,
        Self::NotASet,
        Self::Stray,
    ];

    /// The refusal of a number; none for 0. A number that no function gives counts as a fault.
    pub(crate) fn of(number: u64) -> Option<Self> {
        let place = usize::try_from(number.checked_sub(1)?).ok();
        Some(
            *place
                .and_then(|at| Self::ALL.get(at))
                .unwrap_or(&Self::Fault),
        )
    }

    /// Its number, from 1 on.
    pub fn number(self) -> u8 {
        self as u8 + 1
    }

    fn meaning(self) -> &'static str {
        match self {
            Self::TextTooLong => "the text is over 16,777,215 bytes",
            Self::LinesFull => "fewer than two line words a line",
            Self::NestedTooDeep => "a container with 32 around it",
            Self::TooManySections => "over 32 sections would be open",
            Self::HeadingTooLong => "a heading of over 65,535 marks",
            Self::EventsFull => "the event words are full",
            Self::Fault => "a fault of the parser",
            Self::BytesFull => "the bytes lent are full",
            Self::CutShort => "the input ends too early",
            Self::NotListed => "a kind, or a role and node, that is not listed",
            Self::OutOfRange => "a field out of its range",
            Self::BadNesting => "bad nesting",
            Self::ElementsFull => "no room for an element of a set, or a piece",
            Self::NotASet => "not a set of attributes",
            Self::Stray => "not the events of the text",
        }
    }
}

/// A refusal with its place: in the text for a parse, the event's index for a list of events, the record's first byte for a stream,
/// a byte of the set, or of the page's text that it stands in. For [`Refusal::Stray`] it is the index of an event given, Stale ones
/// counted, or the number of events where they end too early.
#[derive(Debug, Clone, Copy, PartialEq, Eq, Hash)]
pub struct Refused {
    pub refusal: Refusal,
    pub position: usize,
}

impl fmt::Display for Refused {
    fn fmt(&self, f: &mut fmt::Formatter<'_>) -> fmt::Result {
        let number = self.refusal.number();
        let meaning = self.refusal.meaning();
        write!(f, "refused {number} at {}: {meaning}", self.position)
    }
}

impl Error for Refused {}
