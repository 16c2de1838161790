//! A page that owns its events.

use crate::event::Events;
use crate::lent::{self, Mode, Moved, Parsed};
use crate::refusal::{Refusal, Refused};
use crate::room::{self, EVENT_WORDS, LINE_WORDS, MOST_TEXT};
use crate::set::Attributes;

/// The events of a text or of a stream: one Document, well nested.
#[derive(Debug, Clone, PartialEq, Eq)]
pub struct Page {
    words: Vec<u32>,
    looks: Option<u64>,
}

/// How many lines a text has; of one that is too long, how many its longest admitted part has.
pub(crate) fn line_count(text: &[u8]) -> usize {
    let text = &text[..text.len().min(MOST_TEXT)];
    text.split_inclusive(|byte| *byte == b'\n').count()
}

/// Lends event words, and twice as many again while there are too few, `most` at last. The call answers, and says whether they were.
pub(crate) fn with_room<T>(
    words: &mut Vec<u32>,
    most: usize,
    mut call: impl FnMut(&mut [u32]) -> (T, bool),
) -> T {
    loop {
        let (answer, full) = call(words);
        if !full || words.len() == most {
            return answer;
        }
        words.resize(most.min(2 * words.len()), 0);
    }
}

/// Lends `most` bytes, and keeps what is made of them.
fn made(
    most: usize,
    call: impl FnOnce(&mut [u8]) -> Result<Moved, Refused>,
) -> Result<Vec<u8>, Refused> {
    let mut bytes = vec![0; most];
    let made = call(&mut bytes)?.made;
    bytes.truncate(made);
    Ok(bytes)
}

impl Page {
    /// Parses a text, with more room for its events as long as there is too little.
    pub fn parse(text: impl AsRef<[u8]>) -> Result<Self, Refused> {
        let text = text.as_ref();
        let line_count = line_count(text);
        let most = room::events(text.len());
        let mut lines = vec![0; LINE_WORDS * line_count];
        let mut words = vec![0; most.min(EVENT_WORDS * (4 * line_count + 64))];
        let Parsed { events, looks, .. } = with_room(&mut words, most, |words| {
            let parsed = lent::parse(text, &mut lines, words);
            let full = matches!(parsed, Err(refused) if refused.refusal == Refusal::EventsFull);
            (parsed, full)
        })?;
        words.truncate(EVENT_WORDS * events);
        let looks = Some(looks);
        Ok(Self { words, looks })
    }

    /// Reads a stream of records.
    pub fn read(stream: &[u8]) -> Result<Self, Refused> {
        let mut words = vec![0; room::read(stream.len())];
        let events = lent::read(stream, &mut words)?.made;
        words.truncate(EVENT_WORDS * events);
        Ok(Self { words, looks: None })
    }

    /// The events, without Stale ones.
    pub fn events(&self) -> Events<'_> {
        Events::new(&self.words)
    }

    /// The sets of its attribute lines, in order, each with its place in the text. A page does not keep its text, so that is lent again;
    /// in another text a set may be refused.
    pub fn attributes<'t>(&self, text: &'t [u8]) -> Attributes<'_, 't> {
        Attributes::new(self.events(), text)
    }

    /// The event words, eight each, Stale events among them.
    pub fn words(&self) -> &[u32] {
        &self.words
    }

    /// How often a line was tested; a stream does not say it.
    pub fn looks(&self) -> Option<u64> {
        self.looks
    }

    fn event_count(&self) -> usize {
        self.words.len() / EVENT_WORDS
    }

    /// The page as a stream of records.
    pub fn stream(&self) -> Result<Vec<u8>, Refused> {
        made(room::stream(self.event_count()), |bytes| {
            lent::write(&self.words, bytes)
        })
    }

    /// The page as lines: its events, without the Blanklines or with them, and its looks where they are known.
    ///
    /// ```
    /// use tolphaneap::{Mode, Page};
    ///
    /// let page = Page::parse("\n***\n")?;
    /// assert_eq!(
    ///     page.listing(Mode::Short)?,
    ///     "E Document 0 0\nA ThematicBreak 1 4\nX Document 5 5\nlooks 3\n"
    /// );
    /// assert_eq!(
    ///     page.listing(Mode::Full)?,
    ///     "E Document 0 0\nA Blankline 0 1\nA ThematicBreak 1 4\nX Document 5 5\nlooks 3\n"
    /// );
    /// # Ok::<(), tolphaneap::Refused>(())
    /// ```
    pub fn listing(&self, mode: Mode) -> Result<String, Refused> {
        let lines = made(room::listing(self.event_count()), |out| match self.looks {
            None => lent::list(mode, &self.words, out),
            Some(looks) => {
                let events = self.event_count();
                let parsed = Parsed {
                    length: 0, // a listing does not show it
                    events,
                    looks,
                };
                lent::page(mode, &Ok(parsed), &self.words, out)
            }
        })?;
        Ok(String::from_utf8_lossy(&lines).into_owned())
    }
}
