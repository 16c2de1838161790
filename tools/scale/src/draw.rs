//! Draws the cases of each mode.

use crate::gen_records;
use crate::gen_words;
use crate::random::Random;
use crate::records;

/// Streams and word lists that are made of one text's events.
const USES: u64 = 16;

/// The longest text whose rooms are swept.
const SWEPT: usize = 65_536;

/// Bytes that mean something to some rule, and some that are not UTF-8.
const MARKS: &[u8] =
    b"\n\n\n\n  \t\r\x0c#>-*+::`~||[]^{}.=%\"()19iaxv\\\x00\x01\x80\xbf\xc3\xe2\xff";

#[derive(Clone, Copy, PartialEq, Eq)]
pub enum Mode {
    Texts,
    Rooms,
    Bytes,
    Streams,
}

impl Mode {
    pub const ALL: [Mode; 4] = [Mode::Texts, Mode::Rooms, Mode::Bytes, Mode::Streams];

    pub fn name(self) -> &'static str {
        match self {
            Mode::Texts => "texts",
            Mode::Rooms => "rooms",
            Mode::Bytes => "bytes",
            Mode::Streams => "streams",
        }
    }
}

/// One input: `t` a text, `o` one whose rooms are swept, `b` any bytes, `r` a stream to read, `w` words to take.
#[derive(Clone)]
pub struct Case {
    pub op: u8,
    pub data: Vec<u8>,
    /// What is lent; the modes of texts draw their rooms from the salt.
    pub room: usize,
    pub salt: u64,
    pub damaged: bool,
}

impl Case {
    pub fn words(&self) -> Vec<u32> {
        let words = self.data.chunks_exact(4);
        words
            .map(|word| u32::from_le_bytes(word.try_into().expect("four bytes")))
            .collect()
    }
}

/// The cases of one block of indexes, one after the other.
pub struct Draws {
    mode: Mode,
    random: Random,
    events: Vec<u32>,
    stream: Vec<u8>,
    /// Where each record of the stream begins, and the stream's end.
    starts: Vec<usize>,
}

impl Draws {
    /// Every block has its own numbers, so that it does not matter which thread draws it.
    pub fn new(mode: Mode, seed: u64, block: u64) -> Self {
        let mut random = Random::new(seed ^ (mode as u64) << 56);
        let start = random.next() ^ Random::new(block).next();
        Self {
            mode,
            random: Random::new(start),
            events: Vec::new(),
            stream: Vec::new(),
            starts: Vec::new(),
        }
    }

    pub fn next(&mut self, index: u64) -> Case {
        let random = &mut self.random;
        let (op, data) = match self.mode {
            Mode::Texts => (b't', gen_words::text(random, index)),
            Mode::Rooms => {
                let mut text = gen_words::text(random, index);
                text.truncate(SWEPT);
                (b'o', text)
            }
            Mode::Bytes => (b'b', any_bytes(random, index)),
            Mode::Streams => return self.records(index),
        };
        let salt = random.next();
        Case {
            op,
            data,
            room: 0,
            salt,
            damaged: false,
        }
    }

    /// A stream or words, good or damaged.
    fn records(&mut self, index: u64) -> Case {
        let random = &mut self.random;
        if index % USES == 0 || self.events.is_empty() {
            self.events = match random.below(16) {
                0 => deep(random),
                _ => gen_records::events(random, 0),
            };
            self.stream = records::write(&self.events, usize::MAX).unwrap_or_default();
            self.starts = starts(&self.stream);
        }
        let (op, room, data) = match random.below(8) {
            0 => {
                let room = random.below(400);
                let bytes = (0..random.below(120)).map(|_| random.any_byte());
                (b'r', room, bytes.collect())
            }
            1 | 2 => {
                let room = 8 * self.starts.len() + random.pick(&[0, 8, 9, 80]);
                (b'r', room, self.moved(index))
            }
            _ => {
                let (op, payload) = gen_records::damaged(random, self.events.clone());
                let (room, data) = payload.split_at(4);
                let room = u32::from_le_bytes(room.try_into().expect("four bytes"));
                (op, room as usize, data.to_vec())
            }
        };
        Case {
            op,
            damaged: op == b'r' && data != self.stream,
            data,
            room,
            salt: self.random.next(),
        }
    }

    /// The stream with a whole record taken out, put in once more, or put elsewhere.
    fn moved(&mut self, index: u64) -> Vec<u8> {
        let records = self.starts.len() - 1;
        let (one, other) = (self.random.below(records), self.random.below(records));
        let record = self.starts[one]..self.starts[one + 1];
        // The deepest place is in the middle, where one Enter more may be one too many.
        let place = self.starts[if index % 2 == 0 { other } else { records / 2 }];
        let (before, after) = self.stream.split_at(place);
        let put_in = [before, &self.stream[record.clone()], after].concat();
        match self.random.below(3) {
            0 => [&self.stream[..record.start], &self.stream[record.end..]].concat(),
            1 => put_in,
            _ => {
                let mut moved = put_in;
                let by = if place <= record.start {
                    record.len()
                } else {
                    0
                };
                drop(moved.drain(record.start + by..record.end + by));
                moved
            }
        }
    }
}

/// Where records begin, and the end: with room for so many events the next record is refused at its first byte.
fn starts(stream: &[u8]) -> Vec<usize> {
    let ends =
        |events: usize| records::read(stream, 8 * events).map_err(|refusal| refusal.position);
    let starts = (0..).map_while(|events| ends(events).err());
    starts.chain([stream.len()]).collect()
}

/// Events of about as many open at once as a reader keeps.
fn deep(random: &mut Random) -> Vec<u32> {
    let bodies: [[u32; 5]; 5] = [
        [2, 0, 0, 0, 0],
        [3, 1, 4, 0, 0],
        [4, 1, 45, 0, 0],
        [5, 0, 6, 7, 1],
        [16, 2, 1, 9, 0],
    ];
    let most = 127;
    let depth = random.between(most - 3, most);
    let inside: Vec<_> = (0..depth).map(|_| random.pick(&bodies)).collect();
    let event = |role, body: &[u32; 5]| {
        let [node, rest @ ..] = *body;
        [role, node, 5, 6, rest[0], rest[1], rest[2], rest[3]]
    };
    let document = [1, 0, 0, 0, 0];
    let mut events = vec![event(1, &document)];
    events.extend(inside.iter().map(|body| event(1, body)));
    events.push([3, 0, 1, 2, 0, 0, 0, 0]);
    events.extend(inside.iter().rev().map(|body| event(2, body)));
    events.push(event(2, &document));
    events.as_flattened().to_vec()
}

/// Bytes of no form, or a text with some of its bytes changed.
fn any_bytes(random: &mut Random, index: u64) -> Vec<u8> {
    let len = match index % 20_000 {
        10_000 => random.below(1 << 20),
        n if n % 200 == 0 => random.below(4_096),
        _ => random.below(80),
    };
    match random.below(4) {
        0 => (0..len).map(|_| random.any_byte()).collect(),
        1 => (0..len).map(|_| random.pick(MARKS)).collect(),
        _ => {
            let mut text = gen_words::text(random, 0);
            for _ in 0..random.between(1, 6) {
                change(&mut text, random);
            }
            text
        }
    }
}

/// One byte flipped, replaced, put in or taken out.
fn change(text: &mut Vec<u8>, random: &mut Random) {
    let place = random.below(text.len() + 1);
    let byte = match random.below(3) {
        0 => random.any_byte(),
        1 => random.any_byte() | 0x80,
        _ => random.pick(MARKS),
    };
    match random.below(4) {
        0 => text.insert(place, byte),
        _ if place == text.len() => text.push(byte),
        1 => text[place] = byte,
        2 => text[place] ^= 1 << random.below(8),
        _ => drop(text.remove(place)),
    }
}
