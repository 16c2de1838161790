//! Records (RULES N), written and read on their own reading of the rules: what the comparison holds the port to.

use crate::refuse::Refusal;

type Event = [u32; 8];

/// What a word of a body is.
#[derive(Clone, Copy, PartialEq)]
enum Field {
    Offset,
    Flag,
    Bullet,
    Type,
    Half,
    Level,
    Alignment,
}

use Field::{Alignment, Bullet, Flag, Half, Level, Offset, Type};

impl Field {
    fn width(self) -> usize {
        match self {
            Offset => 3,
            Level => 2,
            Half => 4,
            Flag | Bullet | Type | Alignment => 1,
        }
    }

    fn holds(self, word: u32) -> bool {
        match self {
            Offset => word < 1 << 24,
            Flag => word < 2,
            Bullet => [b'-', b'*', b'+'].map(u32::from).contains(&word),
            Type => (1..=5).contains(&(word / 4)) && word % 4 < 3,
            Half => true,
            Level => (1..1 << 16).contains(&word),
            Alignment => word < 4,
        }
    }
}

/// The body of a listed role and node.
fn body(role: u32, node: u32) -> Option<&'static [Field]> {
    match (role, node) {
        (1 | 2, 3 | 11 | 20 | 21) => Some(&[Offset, Offset]),
        (1 | 2, 4 | 6) => Some(&[Flag, Bullet]),
        (1 | 2, 5) => Some(&[Flag, Type, Half, Half]),
        (1 | 2, 7 | 9 | 13) => Some(&[Flag]),
        (1 | 2, 14) => Some(&[Offset]),
        (1 | 2, 16) => Some(&[Level, Flag, Offset]),
        (1 | 2, 18) => Some(&[Alignment]),
        (1 | 2, 1 | 2 | 8 | 10 | 12 | 15 | 17 | 19) | (3, 0) | (4, 1..=3) => Some(&[]),
        _ => None,
    }
}

fn in_range(event: &Event, fields: &[Field]) -> bool {
    let [_, _, start, end, rest @ ..] = event;
    let used = rest
        .iter()
        .zip(fields)
        .all(|(word, field)| field.holds(*word));
    let unused = rest[fields.len()..].iter().all(|word| *word == 0);
    let pair = fields != [Offset, Offset] || rest[0] <= rest[1];
    start <= end && Offset.holds(*end) && used && unused && pair
}

/// The Enters that are open, and whether Document has closed.
#[derive(Default)]
struct Nesting {
    open: Vec<Event>,
    closed: bool,
}

impl Nesting {
    /// Takes an event in, if it may come here.
    fn take(&mut self, event: &Event) -> bool {
        let inside = !self.open.is_empty();
        if self.closed {
            return false;
        }
        match event[0] {
            1 if self.open.len() == 128 || (event[1] == 1) == inside => false,
            1 => {
                self.open.push(*event);
                true
            }
            2 => match self.open.pop() {
                Some(enter) if (enter[1], &enter[4..]) == (event[1], &event[4..]) => {
                    self.closed = self.open.is_empty();
                    true
                }
                _ => false,
            },
            _ => inside,
        }
    }
}

fn refused<T>(number: u8, position: usize) -> Result<T, Refusal> {
    Err(Refusal { number, position })
}

/// The stream of the events in `words`, for a buffer of so many bytes.
pub fn write(words: &[u32], room: usize) -> Result<Vec<u8>, Refusal> {
    let (mut nesting, mut stream) = (Nesting::default(), Vec::new());
    let events = words.chunks_exact(8);
    let (count, spare) = (events.len(), events.remainder().len());
    for (index, words) in events.enumerate() {
        let event: Event = words.try_into().expect("eight words");
        if event == [0; 8] {
            continue;
        }
        let fields = match body(event[0], event[1]) {
            Some(fields) => fields,
            None if event[..2] == [0, 0] => return refused(11, index),
            None => return refused(10, index),
        };
        if !in_range(&event, fields) {
            return refused(11, index);
        }
        if !nesting.take(&event) {
            return refused(12, index);
        }
        let mut record = vec![(event[0] << 5 | event[1]) as u8];
        let widths = [Offset, Offset].iter().chain(fields);
        for (word, field) in event[2..].iter().zip(widths) {
            record.extend(&word.to_le_bytes()[..field.width()]);
        }
        stream.extend(record);
        if stream.len() > room {
            return refused(8, index);
        }
    }
    if nesting.closed && spare == 0 {
        Ok(stream)
    } else {
        refused(9, count)
    }
}

/// The events of a stream, for a buffer of so many words.
pub fn read(bytes: &[u8], room: usize) -> Result<Vec<Event>, Refusal> {
    let (mut nesting, mut events) = (Nesting::default(), Vec::new());
    let mut at = 0;
    while at < bytes.len() {
        let (role, node) = (u32::from(bytes[at] >> 5), u32::from(bytes[at] & 31));
        let Some(fields) = body(role, node) else {
            return refused(10, at);
        };
        let mut event: Event = [role, node, 0, 0, 0, 0, 0, 0];
        let mut place = at + 1;
        for (word, field) in event[2..]
            .iter_mut()
            .zip([Offset, Offset].iter().chain(fields))
        {
            let Some(part) = bytes.get(place..place + field.width()) else {
                return refused(9, at);
            };
            *word = part
                .iter()
                .rev()
                .fold(0, |sum, byte| sum << 8 | u32::from(*byte));
            place += field.width();
        }
        if !in_range(&event, fields) {
            return refused(11, at);
        }
        if !nesting.take(&event) {
            return refused(12, at);
        }
        if events.len() == room / 8 {
            return refused(6, at);
        }
        events.push(event);
        at = place;
    }
    if nesting.closed {
        Ok(events)
    } else {
        refused(9, at)
    }
}
