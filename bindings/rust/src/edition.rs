//! What changed between two editions of a text.

use crate::lent::{self, Part};
use crate::page::{self, Page};
use crate::refusal::{Refusal, Refused};
use crate::room::{self, EVENT_WORDS, LINE_WORDS};
use std::error::Error;
use std::fmt;
use std::ops::{Range, RangeInclusive};

/// The two texts.
#[derive(Debug, Clone, Copy, PartialEq, Eq, Hash)]
pub enum Which {
    Older,
    Newer,
}

impl Which {
    /// The text of a number.
    pub(crate) fn of(number: u64) -> Self {
        match number {
            1 => Self::Older,
            _ => Self::Newer,
        }
    }

    /// Its number: 1 or 2.
    pub fn number(self) -> u8 {
        match self {
            Self::Older => 1,
            Self::Newer => 2,
        }
    }
}

/// A refusal, and the text that it is of.
#[derive(Debug, Clone, Copy, PartialEq, Eq, Hash)]
pub struct RefusedEdition {
    pub which: Which,
    pub refused: Refused,
}

impl fmt::Display for RefusedEdition {
    fn fmt(&self, f: &mut fmt::Formatter<'_>) -> fmt::Result {
        let name = match self.which {
            Which::Older => "the older text",
            Which::Newer => "the newer text",
        };
        write!(f, "{name}: {}", self.refused)
    }
}

impl Error for RefusedEdition {
    fn source(&self) -> Option<&(dyn Error + 'static)> {
        Some(&self.refused)
    }
}

/// Whole blocks of a text: their bytes, where they stand, and their lines, counted from 1.
#[derive(Debug, Clone, PartialEq, Eq, Hash)]
pub struct Blocks<'t> {
    pub bytes: &'t [u8],
    pub span: Range<usize>,
    pub lines: RangeInclusive<usize>,
}

impl<'t> Blocks<'t> {
    /// The blocks at a span that begins where a line does and is not empty.
    fn new(text: &'t [u8], span: Range<usize>) -> Self {
        let newlines = |part: &[u8]| part.iter().filter(|byte| **byte == b'\n').count();
        let bytes = &text[span.clone()];
        let first = 1 + newlines(&text[..span.start]);
        let last = first + newlines(&bytes[..bytes.len().saturating_sub(1)]);
        Self {
            bytes,
            span,
            lines: first..=last,
        }
    }
}

/// What changed between two editions: nothing, blocks that are new in the newer text, or, where nothing is new, those removed from the
/// older. What stands before the blocks and what stands behind them is in both texts.
#[derive(Debug, Clone, PartialEq, Eq, Hash)]
pub enum Changed<'o, 'n> {
    Same,
    New(Blocks<'n>),
    Removed(Blocks<'o>),
}

/// The part that changed between two editions of a text, in whole top-level blocks: what is left of the newer text without the longest
/// run of equal blocks at the front, and then at the back. A heading is a block by itself, a list is one.
///
/// ```
/// use tolphaneap::{changed, Changed};
///
/// let older = "# Restart\n\nDrain the node.\n\nRestart it.\n";
/// let newer = "# Restart\n\nDrain the node.\n\nWait a minute.\n\nRestart it.\n";
/// match changed(older, newer)? {
///     Changed::Same => println!("nothing changed"),
///     Changed::New(part) => {
///         assert_eq!(part.bytes, b"Wait a minute.\n\n");
///         assert_eq!(part.lines, 5..=6);
///     }
///     Changed::Removed(part) => println!("removed: {:?}", part.lines),
/// }
/// assert!(matches!(changed(newer, older)?, Changed::Removed(part) if part.lines == (5..=6)));
/// # Ok::<(), tolphaneap::RefusedEdition>(())
/// ```
pub fn changed<'o, 'n>(
    older: &'o (impl AsRef<[u8]> + ?Sized),
    newer: &'n (impl AsRef<[u8]> + ?Sized),
) -> Result<Changed<'o, 'n>, RefusedEdition> {
    let page =
        |which, text: &[u8]| Page::parse(text).map_err(|refused| RefusedEdition { which, refused });
    let older_page = page(Which::Older, older.as_ref())?;
    let newer_page = page(Which::Newer, newer.as_ref())?;
    changed_pages((older, &older_page), (newer, &newer_page))
}

/// The same for a caller that keeps the page of each text. A page that is not its text's is refused as [`Refusal::Stray`]; one that was
/// read from its stream is the same as one that was parsed.
///
/// ```
/// use tolphaneap::{changed_pages, Changed, Page};
///
/// let (older, newer) = ("Drain it.\n", "Drain it.\n\nWait.\n");
/// let (page, next) = (Page::parse(older)?, Page::parse(newer)?);
/// let part = changed_pages((older, &page), (newer, &next))?;
/// assert!(matches!(part, Changed::New(blocks) if blocks.bytes == b"\nWait.\n"));
/// assert!(changed_pages((older, &page), (newer, &page)).is_err());
/// # Ok::<(), Box<dyn std::error::Error>>(())
/// ```
pub fn changed_pages<'o, 'n>(
    (older, older_page): (&'o (impl AsRef<[u8]> + ?Sized), &Page),
    (newer, newer_page): (&'n (impl AsRef<[u8]> + ?Sized), &Page),
) -> Result<Changed<'o, 'n>, RefusedEdition> {
    let (older, newer) = (older.as_ref(), newer.as_ref());
    let line_count = page::line_count(older).max(page::line_count(newer));
    let most = room::events(older.len().max(newer.len()));
    let longest = older_page.words().len().max(newer_page.words().len());
    let mut lines = vec![0; LINE_WORDS * line_count];
    let mut events = vec![0; most.min(longest + EVENT_WORDS)];
    let Part { which, span } = page::with_room(&mut events, most, |events| {
        let older = (older, older_page.words());
        let newer = (newer, newer_page.words());
        let part = lent::changes(older, newer, &mut lines, events);
        let full = matches!(part, Err(e) if e.refused.refusal == Refusal::EventsFull);
        (part, full)
    })?;
    Ok(match which {
        Which::Older => Changed::Removed(Blocks::new(older, span)),
        Which::Newer if span.is_empty() => Changed::Same,
        Which::Newer => Changed::New(Blocks::new(newer, span)),
    })
}
