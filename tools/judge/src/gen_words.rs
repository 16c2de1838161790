//! Generates texts together with what a parse of them is lent.

use crate::frames::TextFrame;
use crate::gen_text;
use crate::random::Random;
use crate::words::{counted, line_count, LIMIT, MAX_TEXT, WORDS_PER_EVENT, WORDS_PER_LINE};
use std::iter;

/// Long texts come only once in this many.
const LONG_HEADING_EVERY: u64 = 5_000;
const LONG_TEXT_EVERY: u64 = 50_000;

fn words(count: usize, each: usize) -> u32 {
    u32::try_from(count * each).expect("the texts are short enough")
}

/// The text with exactly the words that it needs within the limits.
pub fn fitted(text: Vec<u8>, nesting: u8, sections: u8) -> TextFrame {
    let peak = counted(&text, nesting, sections).peak;
    TextFrame {
        line_words: words(line_count(&text), WORDS_PER_LINE),
        event_words: words(peak, WORDS_PER_EVENT),
        nesting,
        sections,
        text,
    }
}

/// The text with the usual limits and exactly the words that it needs.
pub fn plain(text: &[u8]) -> TextFrame {
    fitted(text.to_vec(), LIMIT, LIMIT)
}

fn is_long(index: u64) -> bool {
    index % LONG_TEXT_EVERY == LONG_TEXT_EVERY / 2
}

/// The `index`-th generated text.
pub fn text(random: &mut Random, index: u64) -> Vec<u8> {
    if is_long(index) {
        // The second one and every other after it fits, the others are too long by one byte.
        let fits = (index / LONG_TEXT_EVERY) % 2;
        let mut text = vec![b'a'; MAX_TEXT + 1 - fits as usize];
        text[0] = random.pick(b"a#|\n`");
        return text;
    }
    if index % LONG_HEADING_EVERY == LONG_HEADING_EVERY / 2 {
        return gen_text::long_heading(random);
    }
    match random.below(60) {
        0 => gen_text::nested(random),
        1 => gen_text::sections(random),
        _ => gen_text::text(random),
    }
}

/// The `index`-th generated text, mostly with words enough. Its limits are 32, or any from 1 on.
pub fn frame(random: &mut Random, index: u64, any_limits: bool) -> TextFrame {
    let text = text(random, index);
    if is_long(index) {
        return plain(&text);
    }
    let mut limit = || match random.below(3) {
        _ if !any_limits => LIMIT,
        0 => LIMIT,
        1 => random.pick(&[1, 2, 3, LIMIT - 1]),
        _ => random.between(1, LIMIT.into()) as u8,
    };
    let (nesting, sections) = (limit(), limit());
    let mut frame = fitted(text, nesting, sections);
    lend(random, &mut frame);
    frame
}

/// Lends some words more, which count for nothing, or too few.
fn lend(random: &mut Random, frame: &mut TextFrame) {
    frame.line_words = match random.below(40) {
        0 => random.below(frame.line_words as usize + 1) as u32,
        1 => frame.line_words.saturating_sub(1),
        _ => frame.line_words + random.pick(&[0, 0, 1, 2, 64]),
    };
    frame.event_words = match random.below(8) {
        0 => random.below(frame.event_words as usize + 1) as u32,
        _ => frame.event_words + random.pick(&[0, 0, 1, 7, 8, 64]),
    };
}

/// The `index`-th text with every capacity from none to what it needs.
pub fn sweep(random: &mut Random, index: u64, any_limits: bool) -> impl Iterator<Item = TextFrame> {
    let frame = frame(random, index, any_limits);
    let frame = fitted(frame.text, frame.nesting, frame.sections);
    let capacities = 0..=frame.event_words as usize / WORDS_PER_EVENT;
    let mut capacities = capacities.map(|events| words(events, WORDS_PER_EVENT));
    iter::from_fn(move || {
        capacities.next().map(|event_words| TextFrame {
            event_words,
            ..frame.clone()
        })
    })
}
