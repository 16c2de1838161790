//! Generates events and streams of records, good and damaged, with the room that is lent for them.

use crate::random::Random;
use crate::words::parsed;
use crate::{chosen, gen_words, records};

/// The words of a generated text's events, Stale ones among them; a Document alone where the text is refused.
pub fn events(random: &mut Random, index: u64) -> Vec<u32> {
    let mut frame = gen_words::frame(random, index, false);
    frame.text.truncate(400);
    let frame = gen_words::plain(&frame.text);
    match parsed(&frame, false) {
        Ok(parsed) => parsed.events.as_flattened().to_vec(),
        Err(_) => vec![1, 1, 0, 0, 0, 0, 0, 0, 2, 1, 0, 0, 0, 0, 0, 0],
    }
}

fn word(random: &mut Random) -> u32 {
    let near = random.pick(&[
        0,
        1,
        2,
        3,
        4,
        22,
        31,
        32,
        45,
        255,
        65_535,
        16_777_215,
        u32::MAX,
    ]);
    match random.below(3) {
        0 => near,
        1 => near.wrapping_add(1),
        _ => random.below(24) as u32,
    }
}

/// Room enough, or not quite, or any.
fn room(random: &mut Random, needed: usize) -> usize {
    match random.below(6) {
        0 => random.below(needed + 2),
        1 => needed.saturating_sub(1),
        _ => needed + random.pick(&[0, 0, 1, 7, 8, 100]),
    }
}

/// An operation, the room that it is lent, and its words or bytes.
pub fn payload(random: &mut Random, index: u64) -> (u8, Vec<u8>) {
    let words = events(random, index);
    damaged(random, words)
}

/// The same of given events, mostly damaged.
pub fn damaged(random: &mut Random, mut words: Vec<u32>) -> (u8, Vec<u8>) {
    let stream = records::write(&words, usize::MAX).expect("a parse's events are good");
    if random.once_in(2) {
        let room = room(random, stream.len());
        for _ in 0..random.pick(&[0, 0, 1, 1, 2]) {
            let place = random.below(words.len());
            words[place] = word(random);
        }
        match random.below(8) {
            0 => words.truncate(random.below(words.len() + 1)),
            1 => words.extend([0; 8]),
            2 => words.extend([0; 3]),
            _ => {}
        }
        let bytes = words.iter().flat_map(|word| word.to_le_bytes());
        return (
            b'w',
            (room as u32)
                .to_le_bytes()
                .into_iter()
                .chain(bytes)
                .collect(),
        );
    }
    let room = room(random, 8 * stream.len() / 7 + 16);
    let mut bytes = stream;
    for _ in 0..random.pick(&[0, 0, 1, 1, 2]) {
        let place = random.below(bytes.len());
        bytes[place] = random.any_byte();
    }
    match random.below(8) {
        0 => bytes.truncate(random.below(bytes.len() + 1)),
        1 => bytes.push(random.any_byte()),
        2 => bytes = (0..random.below(40)).map(|_| random.any_byte()).collect(),
        _ => {}
    }
    (
        b'r',
        (room as u32)
            .to_le_bytes()
            .into_iter()
            .chain(bytes)
            .collect(),
    )
}

/// Small streams, each with room for all of its events and one more: those of the chosen texts, the longer ones left out.
pub fn damages() -> impl Iterator<Item = Vec<u8>> {
    let streams = chosen::texts().filter_map(|text| {
        let events = parsed(&gen_words::plain(&text), false).ok()?.events;
        let stream =
            records::write(events.as_flattened(), usize::MAX).expect("a parse's events are good");
        let room = 8 * events.len() as u32 + 8;
        (stream.len() <= 80).then(|| room.to_le_bytes().into_iter().chain(stream).collect())
    });
    let mut kept: Vec<Vec<u8>> = streams.collect();
    kept.sort();
    kept.dedup();
    kept.into_iter()
}
