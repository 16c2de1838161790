//! Two editions of a text: the part that changed, checked against a plain comparison of blocks and timed beside the two parses.

use crate::case::{MEGABYTE, SIZES, SPARE_EVENTS};
use crate::ours::{self, EVENT_WORDS};
use crate::texts::Text;
use crate::timing::Best;
use std::hint::black_box;

/// A text, its events, and where its top-level blocks begin, the text's end behind them.
#[derive(Clone)]
struct Edition {
    text: String,
    events: Vec<u32>,
    starts: Vec<usize>,
}

impl Edition {
    /// Parses the text in as much room as it needs, and gives that room too.
    fn new(text: String) -> (Self, [Vec<u32>; 2]) {
        let (_, [_, _, count, _]) = ours::parse_in_new(&text, text.len() / 16);
        let (lent, answer) = ours::parse_in_new(&text, count as usize + SPARE_EVENTS);
        let [refusal, position, count, _] = answer;
        assert_eq!(refusal, 0, "refused {refusal} at {position}");
        let events = lent[1][..EVENT_WORDS * count as usize].to_vec();
        let starts = starts(&text, &events);
        let edition = Edition {
            text,
            events,
            starts,
        };
        (edition, lent)
    }

    fn given(&self) -> (&[u8], &[u32]) {
        (self.text.as_bytes(), &self.events)
    }

    fn blocks(&self) -> impl DoubleEndedIterator<Item = &str> {
        self.starts
            .windows(2)
            .map(|ends| &self.text[ends[0]..ends[1]])
    }
}

/// Where blocks begin that stand in Document and sections alone, and the text's end.
fn starts(text: &str, events: &[u32]) -> Vec<usize> {
    const AROUND: [u32; 2] = [1, 14];
    let (mut open, mut starts) = (0, Vec::new());
    for event in events.chunks_exact(EVENT_WORDS) {
        let (role, node) = (event[0], event[1]);
        let enters = role == 1 && !AROUND.contains(&node);
        if open == 0 && (enters || role == 4) {
            let before = &text.as_bytes()[..event[2] as usize];
            let newline = before.iter().rposition(|byte| *byte == b'\n');
            starts.push(newline.map_or(0, |place| place + 1));
        }
        open += usize::from(enters);
        open -= usize::from(role == 2 && !AROUND.contains(&node));
    }
    starts.push(text.len());
    starts
}

/// What the comparison must answer.
fn expected(older: &Edition, newer: &Edition) -> [u64; 5] {
    let [taken, put] = [older, newer].map(|edition| edition.starts.len() - 1);
    let pairs = older.blocks().zip(newer.blocks());
    let front = pairs.take_while(|(a, b)| a == b).count();
    let pairs = older.blocks().rev().zip(newer.blocks().rev());
    let most = taken.min(put) - front;
    let back = pairs.take(most).take_while(|(a, b)| a == b).count();
    let (which, edition, count) = match put == front + back && taken != put {
        true => (1, older, taken),
        false => (2, newer, put),
    };
    let [start, end] = [front, count - back].map(|block| edition.starts[block] as u64);
    [0, 0, which, start, end]
}

/// A newer edition, of a text and of the places of the last letter in each block that has one.
struct Edit {
    name: &'static str,
    make: fn(&str, &[usize]) -> String,
}

/// The text with other letters at some places.
fn changed<'p>(text: &str, places: impl IntoIterator<Item = &'p usize>) -> String {
    let mut bytes = text.as_bytes().to_vec();
    for place in places {
        bytes[*place] = if bytes[*place] == b'x' { b'y' } else { b'x' };
    }
    String::from_utf8(bytes).expect("letters are ASCII")
}

const EDITS: [Edit; 6] = [
    Edit {
        name: "nothing",
        make: |text, _| text.to_string(),
    },
    Edit {
        name: "a block in the middle",
        make: |text, places| changed(text, places.get(places.len() / 2)),
    },
    Edit {
        name: "the first block",
        make: |text, places| changed(text, places.first()),
    },
    Edit {
        name: "the last block",
        make: |text, places| changed(text, places.last()),
    },
    Edit {
        name: "every second block",
        make: |text, places| changed(text, places.iter().step_by(2)),
    },
    Edit {
        name: "a block more in front",
        make: |text, _| format!("A block more.\n\n{text}"),
    },
];

/// The place of the last letter in each block that has one.
fn letters(edition: &Edition) -> Vec<usize> {
    let last = |block: &str| block.rfind(|c: char| c.is_ascii_lowercase());
    let places = edition
        .blocks()
        .zip(&edition.starts)
        .map(|(block, start)| last(block).map(|place| start + place));
    places.flatten().collect()
}

/// Copies of two editions, the buffers that are lent and the best times.
struct Case {
    copies: Vec<[Edition; 2]>,
    lent: [Vec<u32>; 2],
    /// Buffers of its own for each copy: as much memory as large texts take.
    spread: Vec<[Vec<u32>; 2]>,
    best: [Best; 3],
}

impl Case {
    /// Compares the editions once and stops unless the answer is the plain comparison's. This writes the lent buffers.
    fn new(older: &Edition, newer: &Edition, mut lent: [Vec<u32>; 2], copies: usize) -> Self {
        let [lines, events] = &mut lent;
        let answer = ours::changes(older.given(), newer.given(), lines, events);
        assert_eq!(answer, expected(older, newer), "ours and the plain answer");
        let own = |_| [&lent[0], &lent[1]].map(|words| vec![1; words.len()]);
        Case {
            copies: (0..copies)
                .map(|_| [older.clone(), newer.clone()])
                .collect(),
            spread: (0..copies).map(own).collect(),
            lent,
            best: [Best::NONE; 3],
        }
    }

    /// Times the two parses, the comparison, and the comparison with buffers of its own for each copy, each once. Who is first changes with
    /// the round.
    fn run(&mut self, round: usize) {
        let copies = black_box(&self.copies);
        let [lines, events] = &mut self.lent;
        for turn in round..round + 3 {
            let best = &mut self.best[turn % 3];
            match turn % 3 {
                0 => best.time(|| {
                    for edition in copies.iter().flatten() {
                        black_box(ours::parse(&edition.text, lines, events));
                    }
                }),
                1 => best.time(|| {
                    for [older, newer] in copies {
                        black_box(ours::changes(older.given(), newer.given(), lines, events));
                    }
                }),
                _ => best.time(|| {
                    for ([older, newer], [lines, events]) in copies.iter().zip(&mut self.spread) {
                        black_box(ours::changes(older.given(), newer.given(), lines, events));
                    }
                }),
            }
        }
    }

    /// Nanoseconds a byte of both editions: the two parses, the comparison, the comparison with a copy's own buffers.
    fn ns_per_byte(&self) -> [f64; 3] {
        let texts = self.copies.iter().flatten();
        let bytes: usize = texts.map(|edition| edition.text.len()).sum();
        self.best.map(|best| best.0 / bytes as f64)
    }
}

pub const HEAD: &str = "\
| Text | Changed | MB | blocks | two parses ns/byte | comparison ns/byte | own buffers | comparison / parses | 16 MB / 1 MB, same memory | and same buffers |
|---|---|--:|--:|--:|--:|--:|--:|--:|--:|";

/// An edit of the text at each size, with the room that either edition needs.
fn cases(olders: &[(Edition, [Vec<u32>; 2])], edit: &Edit, copies: usize) -> Vec<Case> {
    let copies = [copies, 1];
    let sized = olders.iter().zip(copies);
    sized
        .map(|((older, room), copies)| {
            let (newer, other) = Edition::new((edit.make)(&older.text, &letters(older)));
            let most = |n: usize| vec![0; room[n].len().max(other[n].len())];
            Case::new(older, &newer, [most(0), most(1)], copies)
        })
        .collect()
}

/// Prints a line for each edit and size; an edit that gives what one before it gave is left out.
pub fn print(text: &Text, runs: usize, copies: usize) {
    let name = text.name;
    let olders = SIZES.map(|megabytes| Edition::new((text.make)(megabytes * MEGABYTE)));
    let places = letters(&olders[0].0);
    let newer = |edit: &Edit| (edit.make)(&olders[0].0.text, &places);
    for (n, edit) in EDITS.iter().enumerate() {
        if EDITS[..n].iter().any(|before| newer(before) == newer(edit)) {
            continue;
        }
        let mut cases = cases(&olders, edit, copies);
        for round in 0..runs {
            cases.iter_mut().for_each(|case| case.run(round));
        }
        let [_, small, spread] = cases[0].ns_per_byte();
        for (megabytes, case) in SIZES.into_iter().zip(&cases) {
            let [parses, comparison, own] = case.ns_per_byte();
            let (blocks, times) = (case.copies[0][0].starts.len() - 1, comparison / parses);
            let growth = if megabytes == SIZES[0] {
                " | ".to_string()
            } else {
                format!("{:.2} | {:.2}", own / spread, comparison / small)
            };
            let edit = edit.name;
            println!("| {name} | {edit} | {megabytes} | {blocks} | {parses:.2} | {comparison:.2} | {own:.2} | {times:.2} | {growth} |");
        }
    }
}
