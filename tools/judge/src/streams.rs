//! Answers frames of records: what writing and reading answer (N10 to N13), and what they leave.

use crate::frames::TextFrame;
use crate::listing::{listing, Mode, MAX_TEXT};
use crate::records;
use crate::refuse::Refusal;
use crate::words::parsed;

/// What the program `trips` lends.
const STREAM: usize = 36_864;
const EVENTS: usize = 16_384;
const LISTING: usize = 131_072;

fn line(answer: Result<(usize, Vec<u32>), Refusal>) -> String {
    match answer {
        Ok((position, left)) => {
            let left: String = left.iter().map(|number| format!(" {number}")).collect();
            format!("0 {position}{left}\n")
        }
        Err(Refusal { number, position }) => format!("{number} {position} 0\n"),
    }
}

/// Numbers taken together with those before, so that one number can tell two lists apart.
pub fn sum(before: u64, numbers: impl IntoIterator<Item = u64>) -> u64 {
    let add = |sum, number| (sum * 31 + number % 1_000_003) % 1_000_003;
    numbers.into_iter().fold(before, add)
}

/// The answers to streams and every word that they leave, taken together. Lent words are 9 before.
fn read_sum(streams: impl Iterator<Item = Vec<u8>>, room: usize) -> u64 {
    streams.fold(0, |before, bytes| {
        let (answer, left) = match records::read(&bytes, room) {
            Ok(events) => {
                let mut left = events.as_flattened().to_vec();
                left.resize(room, 0);
                ([0, bytes.len(), events.len()], left)
            }
            Err(Refusal { number, position }) => ([number.into(), position, 0], vec![9; room]),
        };
        let answer = answer.into_iter().map(|number| number as u64);
        sum(before, answer.chain(left.into_iter().map(u64::from)))
    })
}

/// A number for every byte, from all its values, and one from every cut.
fn damaged(stream: &[u8], room: usize) -> String {
    let places = (0..stream.len()).map(|place| {
        let changed = (0..=255).map(|value| {
            let mut bytes = stream.to_vec();
            bytes[place] = value;
            bytes
        });
        read_sum(changed, room)
    });
    let cuts = read_sum((0..=stream.len()).map(|len| stream[..len].to_vec()), room);
    let line: String = places.map(|sum| format!("{sum} ")).collect();
    format!("{line}{cuts}\n")
}

/// `w`: words written. `r`: bytes read. `d`: a stream damaged.
pub fn answer(op: u8, payload: &[u8]) -> String {
    let (room, data) = payload.split_at(4);
    let room = u32::from_le_bytes(room.try_into().expect("four bytes")) as usize;
    match op {
        b'w' => {
            let words: Vec<u32> = data
                .chunks_exact(4)
                .map(|word| u32::from_le_bytes(word.try_into().expect("four bytes")))
                .collect();
            line(records::write(&words, room).map(|stream| {
                let count = stream.len() as u32;
                let bytes = stream.into_iter().map(u32::from);
                (words.len() / 8, [count].into_iter().chain(bytes).collect())
            }))
        }
        b'r' => line(records::read(data, room).map(|events| {
            let words = events.as_flattened().iter().copied();
            let count = events.len() as u32;
            (data.len(), [count].into_iter().chain(words).collect())
        })),
        _ => damaged(data, room),
    }
}

/// The answer of a parse within the listing program's limits; of its records number, position, count and sum; of its full listing count and sum.
pub fn trip(frame: &TextFrame) -> String {
    let frame = TextFrame {
        event_words: EVENTS as u32,
        ..frame.clone()
    };
    let answer = if frame.text.len() > MAX_TEXT {
        let (number, position) = (1, 0);
        Err(Refusal { number, position })
    } else {
        parsed(&frame, false)
    };
    let text = listing(&answer, Mode::Full);
    assert!(text.len() <= LISTING, "the listing has room");
    let listed = format!("{} {}", text.len(), sum(0, text.bytes().map(u64::from)));
    match answer {
        Ok(parsed) => {
            let (len, count, looks) = (frame.text.len(), parsed.events.len(), parsed.looks);
            let stream = records::write(parsed.events.as_flattened(), STREAM);
            let stream = stream.unwrap_or_else(|_| panic!("a parse's events are good"));
            let bytes = stream.iter().map(|byte| u64::from(*byte));
            format!(
                "0 {len} {count} {looks} 0 {count} {} {} {listed}",
                stream.len(),
                sum(0, bytes)
            )
        }
        Err(Refusal { number, position }) => format!("{number} {position} 0 0 {listed}"),
    }
}
