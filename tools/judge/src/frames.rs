//! Reads and writes the binary frames that inputs travel in.

use crate::options::PAGES;
use std::borrow::Cow;
use std::io::{self, Read, Write};

/// One text with everything that a parse of it is lent.
#[derive(Clone)]
pub struct TextFrame {
    pub line_words: u32,
    pub event_words: u32,
    pub nesting: u8,
    pub sections: u8,
    pub text: Vec<u8>,
}

/// Fills `bytes`; false if the input ends before the first of them.
fn fill(input: &mut impl Read, bytes: &mut [u8]) -> io::Result<bool> {
    if bytes.is_empty() {
        return Ok(true);
    }
    loop {
        match input.read(&mut bytes[..1]) {
            Ok(0) => return Ok(false),
            Ok(_) => break,
            Err(e) if e.kind() == io::ErrorKind::Interrupted => {}
            Err(e) => return Err(e),
        }
    }
    input.read_exact(&mut bytes[1..]).map(|()| true)
}

fn read_word(input: &mut impl Read) -> io::Result<u32> {
    let mut word = [0; 4];
    input.read_exact(&mut word)?;
    Ok(u32::from_le_bytes(word))
}

fn len_word(bytes: &[u8]) -> [u8; 4] {
    u32::try_from(bytes.len())
        .expect("a frame is shorter than 4 GiB")
        .to_le_bytes()
}

/// The next operation; its payload replaces what `payload` holds.
pub fn read_leaf(input: &mut impl Read, payload: &mut Vec<u8>) -> io::Result<Option<u8>> {
    let mut op = [0];
    if !fill(input, &mut op)? {
        return Ok(None);
    }
    payload.resize(read_word(input)? as usize, 0);
    input.read_exact(payload)?;
    Ok(Some(op[0]))
}

pub fn write_leaf(output: &mut impl Write, op: u8, payload: &[u8]) -> io::Result<()> {
    output.write_all(&[op])?;
    output.write_all(&len_word(payload))?;
    output.write_all(payload)
}

impl TextFrame {
    /// Whether the program `pages` has room for it.
    pub fn fits_pages(&self) -> bool {
        self.text.len() <= PAGES && self.line_words <= 16384 && self.event_words <= 65536
    }
}

pub fn read_text(input: &mut impl Read) -> io::Result<Option<TextFrame>> {
    let mut len = [0; 4];
    if !fill(input, &mut len)? {
        return Ok(None);
    }
    let (line_words, event_words) = (read_word(input)?, read_word(input)?);
    let mut limits = [0; 2];
    input.read_exact(&mut limits)?;
    let mut text = vec![0; u32::from_le_bytes(len) as usize];
    input.read_exact(&mut text)?;
    Ok(Some(TextFrame {
        line_words,
        event_words,
        nesting: limits[0],
        sections: limits[1],
        text,
    }))
}

pub fn write_text(output: &mut impl Write, frame: &TextFrame) -> io::Result<()> {
    output.write_all(&len_word(&frame.text))?;
    output.write_all(&frame.line_words.to_le_bytes())?;
    output.write_all(&frame.event_words.to_le_bytes())?;
    output.write_all(&[frame.nesting, frame.sections])?;
    output.write_all(&frame.text)
}

/// The bytes before a frame's key and set: seven numbers of two bytes.
const SET_HEAD: usize = 14;

/// A set with everything that is lent and asked.
pub struct SetFrame {
    pub op: u8,
    /// Words for elements, pieces, places and spare; bytes for a text.
    pub elements: usize,
    pub pieces: usize,
    pub places: usize,
    pub spare: usize,
    pub bytes: usize,
    /// The element whose text is asked.
    pub place: usize,
    pub key: Vec<u8>,
    pub set: Vec<u8>,
}

impl SetFrame {
    /// The numbers in the order of the fields, then the key's length; then key and set.
    pub fn of(op: u8, payload: &[u8]) -> Self {
        let (head, rest) = payload.split_at(SET_HEAD);
        let number = |i: usize| usize::from(u16::from_le_bytes([head[2 * i], head[2 * i + 1]]));
        let (key, set) = rest.split_at(number(6));
        Self {
            op,
            elements: number(0),
            pieces: number(1),
            places: number(2),
            spare: number(3),
            bytes: number(4),
            place: number(5),
            key: key.to_vec(),
            set: set.to_vec(),
        }
    }

    pub fn payload(&self) -> Vec<u8> {
        let rooms = [self.elements, self.pieces, self.places, self.spare];
        let rest = [self.bytes, self.place, self.key.len()];
        let numbers = rooms.into_iter().chain(rest).map(|number| {
            u16::try_from(number)
                .expect("a set's numbers have two bytes")
                .to_le_bytes()
        });
        let head: Vec<u8> = numbers.flatten().collect();
        [&head[..], &self.key, &self.set].concat()
    }
}

/// A text, and the words of the events that are given with it.
#[derive(Clone)]
pub struct Edition {
    pub text: Vec<u8>,
    pub given: Vec<u32>,
}

/// The bytes before a frame's editions: eight numbers of two bytes.
const PAIR_HEAD: usize = 16;

/// A word from here on has this byte before it and four of its own; a smaller one is a byte.
const LONG_WORD: u8 = 255;

/// Two editions with everything that their comparison is lent.
#[derive(Clone)]
pub struct PairFrame {
    /// `w`: within the limits of the frame. `c`: within the usual ones.
    pub op: u8,
    /// The limits of bytes, nesting and sections.
    pub limit: u16,
    pub nesting: u16,
    pub sections: u16,
    pub line_words: u16,
    pub event_words: u16,
    pub older: Edition,
    pub newer: Edition,
}

impl PairFrame {
    /// The numbers in the order of the fields, then three lengths: of the older text, of its events' bytes and of the newer
    /// text; then the older text, its events, the newer text and its events.
    pub fn of(op: u8, payload: &[u8]) -> Self {
        let (head, rest) = payload.split_at(PAIR_HEAD);
        let number = |i: usize| u16::from_le_bytes([head[2 * i], head[2 * i + 1]]);
        let (older, rest) = rest.split_at(number(5).into());
        let (older_given, rest) = rest.split_at(number(6).into());
        let (newer, newer_given) = rest.split_at(number(7).into());
        let edition = |text: &[u8], given| Edition {
            text: text.to_vec(),
            given: words_of(given),
        };
        Self {
            op,
            limit: number(0),
            nesting: number(1),
            sections: number(2),
            line_words: number(3),
            event_words: number(4),
            older: edition(older, older_given),
            newer: edition(newer, newer_given),
        }
    }

    pub fn payload(&self) -> Vec<u8> {
        let (older, newer) = (&self.older, &self.newer);
        let (older_given, newer_given) = (bytes_of(&older.given), bytes_of(&newer.given));
        let lent = [self.line_words, self.event_words];
        let limits = [self.limit, self.nesting, self.sections];
        let lengths = [older.text.len(), older_given.len(), newer.text.len()]
            .map(|len| u16::try_from(len).expect("an edition's lengths have two bytes"));
        let numbers = limits.into_iter().chain(lent).chain(lengths);
        let head: Vec<u8> = numbers.flat_map(u16::to_le_bytes).collect();
        [
            &head[..],
            &older.text,
            &older_given,
            &newer.text,
            &newer_given,
        ]
        .concat()
    }

    /// Whether the program `reviews` has room for it.
    pub fn fits_reviews(&self) -> bool {
        let given = [&self.older, &self.newer].map(|edition| edition.given.len());
        let (lines, events, most) = (self.line_words, self.event_words, given[0].max(given[1]));
        lines <= 2048 && events <= 4096 && most <= 4096 && self.payload().len() <= 32768
    }
}

fn words_of(bytes: &[u8]) -> Vec<u32> {
    let (mut words, mut rest) = (Vec::new(), bytes);
    while let [first, tail @ ..] = rest {
        let (word, left) = match tail {
            [a, b, c, d, left @ ..] if *first == LONG_WORD => {
                (u32::from_le_bytes([*a, *b, *c, *d]), left)
            }
            _ => (u32::from(*first), tail),
        };
        words.push(word);
        rest = left;
    }
    words
}

fn bytes_of(words: &[u32]) -> Vec<u8> {
    let bytes = words.iter().flat_map(|word| match u8::try_from(*word) {
        Ok(byte) if byte < LONG_WORD => vec![byte],
        _ => [&[LONG_WORD][..], &word.to_le_bytes()].concat(),
    });
    bytes.collect()
}

/// The bytes as the Rust can read them. Where they are not UTF-8, each byte from 128 on is
/// replaced by byte 1: both are "other" in every rule, so only the length counts.
pub fn readable(bytes: &[u8]) -> Cow<'_, str> {
    std::str::from_utf8(bytes).map_or_else(
        |_| {
            bytes
                .iter()
                .map(|b| if b.is_ascii() { char::from(*b) } else { '\x01' })
                .collect()
        },
        Cow::Borrowed,
    )
}
