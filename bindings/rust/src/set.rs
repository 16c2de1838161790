//! A set of attributes that owns its elements.

use crate::event::{Atom, Event, Events};
use crate::refusal::{Refusal, Refused};
use crate::room::{self, ELEMENT_WORDS, PIECE_WORDS};
use crate::sets::{self, CLASS, COMMENT, FURTHER, ID, PAIR};
use std::borrow::Cow;
use std::fmt;
use std::ops::Range;

const CLASS_KEY: &[u8] = b"class";
const ID_KEY: &[u8] = b"id";

/// A value: pieces of the text, joined by a space, those of a comment by nothing. Escapes are not undone.
#[derive(Debug, Clone, PartialEq, Eq)]
pub struct Value<'t> {
    text: &'t [u8],
    pieces: Vec<Range<usize>>,
    glue: &'static [u8],
}

impl<'t> Value<'t> {
    /// Where its pieces stand in the text. An empty value has none.
    pub fn pieces(&self) -> &[Range<usize>] {
        &self.pieces
    }

    /// The pieces joined.
    pub fn bytes(&self) -> Cow<'t, [u8]> {
        let text = self.text;
        let part = |piece: &Range<usize>| text.get(piece.clone()).unwrap_or_default();
        match &self.pieces[..] {
            [] => Cow::Borrowed(&[]),
            [piece] => Cow::Borrowed(part(piece)),
            pieces => Cow::Owned(pieces.iter().map(part).collect::<Vec<_>>().join(self.glue)),
        }
    }

    fn start(&self) -> Option<usize> {
        self.pieces.first().map(|piece| piece.start)
    }

    fn end(&self) -> Option<usize> {
        self.pieces.last().map(|piece| piece.end)
    }
}

/// As text; bytes that are no UTF-8 show as U+FFFD.
impl fmt::Display for Value<'_> {
    fn fmt(&self, f: &mut fmt::Formatter<'_>) -> fmt::Result {
        f.write_str(&String::from_utf8_lossy(&self.bytes()))
    }
}

#[derive(Debug, Clone, PartialEq, Eq)]
pub enum Kind<'t> {
    /// `.name`
    Class,
    /// `#name`
    Id,
    /// `key=value`
    Pair {
        key: &'t [u8],
        /// Where the key stands in the text.
        place: Range<usize>,
    },
    /// `%value%`
    Comment,
}

/// An element of a set, as it stands there.
#[derive(Debug, Clone, PartialEq, Eq)]
pub struct Element<'t> {
    pub kind: Kind<'t>,
    pub value: Value<'t>,
    /// Where it is known: the place of an element that has neither key nor value.
    known: usize,
}

impl<'t> Element<'t> {
    /// `class` for a class, `id` for an id; a comment has none.
    pub fn key(&self) -> Option<&'t [u8]> {
        match self.kind {
            Kind::Class => Some(CLASS_KEY),
            Kind::Id => Some(ID_KEY),
            Kind::Pair { key, .. } => Some(key),
            Kind::Comment => None,
        }
    }

    /// Where it stands in the text, from its key's or value's start to its value's end, without signs and quotes. A pair whose value is
    /// empty ends with its key.
    pub fn span(&self) -> Range<usize> {
        let (start, end) = match &self.kind {
            Kind::Pair { place, .. } => (Some(place.start), place.end),
            _ => (self.value.start(), self.known),
        };
        start.unwrap_or(self.known)..self.value.end().unwrap_or(end)
    }
}

/// A key of a set and its value.
#[derive(Debug, Clone, PartialEq, Eq)]
pub struct Pair<'t> {
    pub key: &'t [u8],
    pub value: Value<'t>,
}

/// A set of attributes, or some without a gap: `{.a}{#b k=v}`. All places are bytes of the text that it stands in. What stands before an
/// escaped newline in a quoted value is lost.
///
/// ```
/// let set = tolphaneap::Set::read(br#"{.note #top .wide title="On call" title=Now}"#)?;
/// assert_eq!(set.elements().count(), 5);
/// assert_eq!(set.get("class").map(|value| value.to_string()), Some("note wide".to_string()));
/// for pair in set.pairs() {
///     println!("{}={}", String::from_utf8_lossy(pair.key), pair.value);
/// }
/// # Ok::<(), tolphaneap::Refused>(())
/// ```
#[derive(Debug, Clone, PartialEq, Eq)]
pub struct Set<'t> {
    text: &'t [u8],
    span: Range<usize>,
    elements: Vec<u64>,
    pieces: Vec<u64>,
}

/// The words of an element: its kind, its key's span, its first piece and the one past its last.
type Words = [u64; ELEMENT_WORDS];

fn words(elements: &[u64]) -> impl Iterator<Item = Words> + '_ {
    let each = elements.chunks_exact(ELEMENT_WORDS);
    each.filter_map(|words| words.first_chunk().copied())
}

impl<'t> Set<'t> {
    /// Reads bytes that are a set and nothing else, whitespace at the end aside.
    pub fn read(bytes: &'t [u8]) -> Result<Self, Refused> {
        Self::within(bytes, 0..bytes.len())
    }

    /// Reads the set that stands in a part of a text, with more room as long as there is too little.
    fn within(text: &'t [u8], span: Range<usize>) -> Result<Self, Refused> {
        let bytes = text.get(span.clone()).unwrap_or_default();
        let (most_elements, most_pieces) = (room::elements(bytes.len()), room::pieces(bytes.len()));
        let mut guess = 16 + bytes.len() / 16;
        loop {
            let mut elements = vec![0; most_elements.min(ELEMENT_WORDS * guess)];
            let mut pieces = vec![0; most_pieces.min(PIECE_WORDS * guess)];
            match sets::read(bytes, &mut elements, &mut pieces) {
                Ok(done) => {
                    elements.truncate(ELEMENT_WORDS * done.made);
                    let used = words(&elements)
                        .last()
                        .map_or(0, |[.., past]| past as usize);
                    pieces.truncate(PIECE_WORDS * used);
                    return Ok(Self {
                        text,
                        span,
                        elements,
                        pieces,
                    });
                }
                Err(refused) if refused.refusal == Refusal::ElementsFull && guess < bytes.len() => {
                    guess *= 2
                }
                Err(Refused { refusal, position }) => {
                    let position = span.start + position;
                    return Err(Refused { refusal, position });
                }
            }
        }
    }

    /// Where it stands in its text, with the whitespace behind it: on a page, up to its line's end.
    pub fn span(&self) -> Range<usize> {
        self.span.clone()
    }

    fn bytes(&self) -> &'t [u8] {
        self.text.get(self.span.clone()).unwrap_or_default()
    }

    /// A span of the set as one of the text.
    fn placed(&self, start: u64, end: u64) -> Range<usize> {
        self.span.start + start as usize..self.span.start + end as usize
    }

    /// Where the pieces of an element stand in the text.
    fn pieces_of(&self, [.., first, past]: Words) -> impl Iterator<Item = Range<usize>> + '_ {
        let own = PIECE_WORDS * first as usize..PIECE_WORDS * past as usize;
        let each = self.pieces.get(own).unwrap_or_default();
        let each = each.chunks_exact(PIECE_WORDS);
        each.map(|span| self.placed(span[0], span[1]))
    }

    /// The value that some elements make up.
    fn value_of(&self, elements: impl Iterator<Item = Words>, glue: &'static [u8]) -> Value<'t> {
        let pieces = elements.flat_map(|words| self.pieces_of(words)).collect();
        let text = self.text;
        Value { text, pieces, glue }
    }

    fn key_of(&self, [kind, start, end, ..]: Words) -> &'t [u8] {
        match kind {
            CLASS => CLASS_KEY,
            ID => ID_KEY,
            _ => self.text.get(self.placed(start, end)).unwrap_or_default(),
        }
    }

    fn element(&self, words: Words) -> Element<'t> {
        let [kind, start, end, ..] = words;
        let place = self.placed(start, end);
        let known = place.end;
        let glue: &[u8] = if kind == COMMENT { b"" } else { b" " };
        let kind = match kind {
            CLASS => Kind::Class,
            ID => Kind::Id,
            PAIR => Kind::Pair {
                key: self.key_of(words),
                place,
            },
            _ => Kind::Comment,
        };
        let value = self.value_of([words].into_iter(), glue);
        Element { kind, value, known }
    }

    /// All of it in order, comments too.
    pub fn elements(&self) -> impl Iterator<Item = Element<'t>> + '_ {
        words(&self.elements).map(|words| self.element(words))
    }

    /// The value of a key: classes join, for another key the last counts. `{class=""}` has none.
    pub fn get(&self, key: impl AsRef<[u8]>) -> Option<Value<'t>> {
        let (mut elements, mut pieces) = (self.elements.clone(), self.pieces.clone());
        // What was read once is read again in the same room, so there is no refusal.
        let made = sets::value(self.bytes(), key.as_ref(), &mut elements, &mut pieces)
            .ok()?
            .made;
        (made > 0).then(|| self.value_of(words(&elements).take(made), b" "))
    }

    /// Each key once, in the order in which they first show, with its value; comments have no key.
    pub fn pairs(&self) -> Vec<Pair<'t>> {
        let (mut elements, mut pieces) = (self.elements.clone(), self.pieces.clone());
        let mut places = vec![0; elements.len() / ELEMENT_WORDS];
        let mut spare = places.clone();
        // As above.
        let made = sets::pairs(
            self.bytes(),
            &mut elements,
            &mut pieces,
            &mut places,
            &mut spare,
        );
        let left = words(&elements).take(made.map_or(0, |done| done.made));
        let (further, shown): (Vec<_>, Vec<_>) = left.partition(|[kind, ..]| *kind == FURTHER);
        let pair = |words| {
            let key = self.key_of(words);
            let more: &[Words] = if key == CLASS_KEY { &further } else { &[] };
            let value = self.value_of([words].iter().chain(more).copied(), b" ");
            Pair { key, value }
        };
        shown.into_iter().map(pair).collect()
    }
}

/// The sets of a page's attribute lines, in order.
#[derive(Debug, Clone)]
pub struct Attributes<'w, 't> {
    events: Events<'w>,
    text: &'t [u8],
}

impl<'w, 't> Attributes<'w, 't> {
    pub(crate) fn new(events: Events<'w>, text: &'t [u8]) -> Self {
        Self { events, text }
    }
}

impl<'t> Iterator for Attributes<'_, 't> {
    type Item = Result<Set<'t>, Refused>;

    fn next(&mut self) -> Option<Self::Item> {
        let line = |event| match event {
            Event::Atom(Atom::Attributes, span) => Some(span),
            _ => None,
        };
        let span = self.events.find_map(line)?;
        Some(Set::within(self.text, span))
    }
}
