//! Answers frames of sets of attributes: what is read, a key's value, the pairs, and texts. The Rust must say the same of each set.

use crate::attr::probe::{parts, raw, Part, CLASS, COMMENT, ID, PAIR};
use crate::attr::{AttributeKind, Attributes};
use crate::frames::{readable, SetFrame};
use crate::refuse::Refusal;
use std::ops::Range;

const WORDS_PER_ELEMENT: usize = 5;
const WORDS_PER_PIECE: usize = 2;

/// A class after the first, among pairs.
const FURTHER: u64 = 5;

/// What a byte and a word hold before they are lent.
const BYTE: u8 = 7;
const WORD: usize = 9;

#[derive(Clone)]
struct Element {
    kind: u64,
    key: Range<usize>,
    pieces: Range<usize>,
}

impl Element {
    fn key<'t>(&self, text: &'t [u8]) -> Option<&'t [u8]> {
        match self.kind {
            CLASS => Some(b"class"),
            ID => Some(b"id"),
            COMMENT => None,
            _ => Some(&text[self.key.clone()]),
        }
    }
}

#[derive(Default)]
struct Opened {
    elements: Vec<Element>,
    pieces: Vec<Range<usize>>,
}

impl Opened {
    /// The words of elements and of pieces.
    fn words(&self) -> (usize, usize) {
        (
            WORDS_PER_ELEMENT * self.elements.len(),
            WORDS_PER_PIECE * self.pieces.len(),
        )
    }

    fn at(&self, place: usize) -> Vec<Element> {
        self.elements.iter().skip(place).take(1).cloned().collect()
    }

    /// The elements that make up a key's value.
    fn value(&self, text: &[u8], key: &[u8]) -> Vec<Element> {
        let mut found = self.elements.iter().filter(|x| x.key(text) == Some(key));
        if key == b"class" {
            found.filter(|x| !x.pieces.is_empty()).cloned().collect()
        } else {
            found.next_back().cloned().into_iter().collect()
        }
    }

    /// Each key once, where it first shows; of classes all.
    fn pairs(&self, text: &[u8]) -> Vec<Element> {
        let pair = |(place, element): (usize, &Element)| {
            let key = element.key(text)?;
            let mut before = self.elements[..place].iter();
            let seen = before.any(|x| x.key(text) == Some(key));
            let mut pair = element.clone();
            match (key, seen) {
                (b"class", false) => {}
                (b"class", true) => pair.kind = FURTHER,
                (_, true) => return None,
                (_, false) => pair.pieces = self.value(text, key).remove(0).pieces,
            }
            Some(pair)
        };
        self.elements.iter().enumerate().filter_map(pair).collect()
    }

    /// The joined pieces of elements, or which of them is the first without room.
    fn text(&self, bytes: &[u8], elements: &[Element], room: usize) -> Result<Vec<u8>, Refusal> {
        let tight = elements.first().is_some_and(|x| x.kind == COMMENT);
        let mut text = Vec::new();
        for piece in elements.iter().flat_map(|x| &self.pieces[x.pieces.clone()]) {
            if !text.is_empty() && !tight {
                text.push(b' ');
            }
            text.extend(&bytes[piece.clone()]);
            if text.len() > room {
                return refused(8, piece.start);
            }
        }
        Ok(text)
    }
}

fn refused<T>(number: u8, position: usize) -> Result<T, Refusal> {
    Err(Refusal { number, position })
}

/// Elements and pieces in so many words.
fn gathered(
    parts: Vec<(usize, Part)>,
    element_words: usize,
    piece_words: usize,
) -> Result<Opened, Refusal> {
    let mut opened = Opened::default();
    for (at, part) in parts {
        let pieces = opened.pieces.len();
        match part {
            Part::Element(kind, key) => opened.elements.push(Element {
                kind,
                key,
                pieces: pieces..pieces,
            }),
            Part::Piece(piece) => {
                opened.pieces.push(piece);
                let last = opened.elements.last_mut();
                last.expect("a piece is an element's").pieces.end += 1;
            }
        }
        let (elements, pieces) = opened.words();
        if elements > element_words || pieces > piece_words {
            return refused(13, at);
        }
    }
    Ok(opened)
}

/// The same, if the text is a set.
fn open(text: &str, element_words: usize, piece_words: usize) -> Result<Opened, Refusal> {
    let (parts, fault) = parts(text);
    let opened = gathered(parts, element_words, piece_words)?;
    fault.map_or(Ok(opened), |at| refused(14, at))
}

/// A question with all that it needs; for what is no set, with what its front needs.
pub fn fitted(op: u8, set: &[u8], key: &[u8], place: usize) -> SetFrame {
    let (parts, _) = parts(&readable(set));
    let opened = gathered(parts, usize::MAX, usize::MAX).unwrap_or_default();
    let asked = match op {
        b'j' => opened.value(set, key),
        b't' => opened.at(place),
        _ => Vec::new(),
    };
    let (elements, pieces) = opened.words();
    let places = if op == b'p' { opened.elements.len() } else { 0 };
    SetFrame {
        op,
        elements,
        pieces,
        places,
        spare: places,
        bytes: opened.text(set, &asked, usize::MAX).map_or(0, |t| t.len()),
        place,
        key: key.to_vec(),
        set: set.to_vec(),
    }
}

/// Asserts that the Rust reads the same.
fn check(text: &str, key: &str) {
    match (
        open(text, usize::MAX, usize::MAX),
        Attributes::try_from(text),
    ) {
        (Ok(opened), Ok(attributes)) => check_set(&opened, text.as_bytes(), key, &attributes),
        (Err(refusal), Err(e)) => assert!(refusal.position == e.pos, "the Rust fails elsewhere"),
        _ => panic!("the Rust takes no set for one, or one for none"),
    }
}

fn check_set(opened: &Opened, text: &[u8], key: &str, attributes: &Attributes) {
    let whole = |elements: &[Element]| {
        let text = opened.text(text, elements, usize::MAX);
        String::from_utf8(text.unwrap_or_default()).expect("parts of a text")
    };
    let elements = opened.elements.iter().map(|x| {
        let kind = match x.kind {
            CLASS => AttributeKind::Class,
            ID => AttributeKind::Id,
            PAIR => AttributeKind::Pair {
                key: String::from_utf8_lossy(&text[x.key.clone()]),
            },
            _ => AttributeKind::Comment,
        };
        (kind, whole(std::slice::from_ref(x)).into())
    });
    assert!(elements.eq(attributes.iter().cloned()), "other elements");

    let value = opened.value(text, key.as_bytes());
    let value = (!value.is_empty()).then(|| whole(&value));
    let found = attributes.get_value(key);
    assert!(value.as_deref() == found.as_ref().map(raw), "another value");

    let shown = opened.pairs(text);
    let (joined, shown): (Vec<_>, Vec<_>) = shown.into_iter().partition(|x| x.kind == FURTHER);
    let pairs = shown.into_iter().map(|x| {
        let key = x.key(text).expect("a pair has a key");
        let more = if key == b"class" { &joined[..] } else { &[] };
        (key, whole(&[&[x], more].concat()))
    });
    let found: Vec<_> = attributes.unique_pairs().collect();
    let found = found
        .iter()
        .map(|(key, value)| (key.as_bytes(), raw(value).to_string()));
    assert!(pairs.eq(found), "other pairs");
}

/// An answer, the words of elements and pieces, and what else is lent.
fn line(frame: &SetFrame, answer: [usize; 3], opened: &Opened, bytes: &[u8]) -> String {
    let mut numbers = answer.to_vec();
    for Element { kind, key, pieces } in &opened.elements {
        numbers.push(*kind as usize);
        numbers.extend([key.start, key.end, pieces.start, pieces.end]);
    }
    numbers.resize(answer.len() + frame.elements, 0);
    numbers.extend(opened.pieces.iter().flat_map(|p| [p.start, p.end]));
    numbers.resize(answer.len() + frame.elements + frame.pieces, 0);
    let word = if frame.op == b'p' { 0 } else { WORD };
    numbers.extend(vec![word; frame.places + frame.spare]);
    numbers.extend(bytes.iter().map(|byte| usize::from(*byte)));
    let numbers: Vec<String> = numbers.iter().map(usize::to_string).collect();
    numbers.join(" ")
}

/// The set with the elements that are asked for alone.
fn chosen(frame: &SetFrame) -> Result<Opened, Refusal> {
    let SetFrame { key, set, .. } = frame;
    let mut opened = open(&readable(set), frame.elements, frame.pieces)?;
    let room = frame.places.min(frame.spare);
    opened.elements = match (frame.op, opened.elements.get(room)) {
        (b'p', Some(unsorted)) => return refused(13, unsorted.key.end),
        (b'p', None) => opened.pairs(set),
        (b'v' | b'j', _) => opened.value(set, key),
        (b't', _) => opened.at(frame.place),
        _ => opened.elements,
    };
    Ok(opened)
}

/// `r`: what is read. `v`: a key's value. `p`: the pairs. `j`: the text of a key's value. `t`: that of an element.
pub fn answer(frame: &SetFrame) -> String {
    check(&readable(&frame.set), &readable(&frame.key));
    let refusal = |Refusal { number, position }| [number.into(), position, 0];
    let mut bytes = vec![BYTE; frame.bytes];
    let opened = match chosen(frame) {
        Ok(opened) => opened,
        Err(refused) => return line(frame, refusal(refused), &Opened::default(), &bytes),
    };
    let mut answer = [0, frame.set.len(), opened.elements.len()];
    if matches!(frame.op, b'j' | b't') {
        match opened.text(&frame.set, &opened.elements, bytes.len()) {
            Ok(text) => {
                bytes[..text.len()].copy_from_slice(&text);
                answer[2] = text.len();
            }
            Err(refused) => answer = refusal(refused),
        }
    }
    line(frame, answer, &opened, &bytes)
}
