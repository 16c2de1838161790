//! Generates payloads for the leaf operations.

use crate::gen_text;
use crate::leaf::TYPE_LEN;
use crate::random::Random;

/// What may follow a marker.
const AFTER: &[&str] = &[
    "", " ", " ", " ", "\n", "\t", "\n", "\r\n", "\r", "\x0c", "\x0b", "a", " a", " a\n", "\u{a0}",
    "é", ".", ")", "]", " \n", "  ", "\t[x] ", "\x01",
];

const WHITESPACE: &[&str] = &[" ", "\t", "\n", "\x0c", "\r"];

/// Bytes that no rule calls whitespace, some of which other rules might.
const NO_WHITESPACE: &[&str] = &[
    "a", "\x0b", "\u{a0}", "\u{2028}", "\u{85}", "\x01", "\x1c", "-",
];

pub fn payload(op: u8, random: &mut Random) -> Vec<u8> {
    let mut payload = match op {
        b'L' => random.soup(&["\n", "\n", "a", "\r\n", "\r", "é", " ", "bc d"], 12),
        b'T' => spaced(random),
        b'B' => definition(random),
        b'M' => return marker(random),
        b'C' => return list_types(random),
        b'A' => attributes(random),
        b'R' => row(random),
        b'I' => gen_text::line(random),
        b'K' => gen_text::block_and_more(random),
        _ => panic!("no generator for the operation {}", char::from(op)),
    };
    if random.once_in(16) {
        damage(&mut payload, random);
    }
    payload
}

/// Puts any byte in place of another, or at the end.
fn damage(payload: &mut Vec<u8>, random: &mut Random) {
    let (place, byte) = (random.below(payload.len() + 1), random.any_byte());
    match payload.get_mut(place) {
        Some(old) => *old = byte,
        None => payload.push(byte),
    }
}

/// Text with whitespace before, inside and after.
fn spaced(random: &mut Random) -> Vec<u8> {
    let mut text = random.soup(WHITESPACE, 4);
    text.extend(random.soup(NO_WHITESPACE, 3));
    if random.once_in(3) {
        text.extend(random.soup(WHITESPACE, 2));
        text.extend(random.soup(NO_WHITESPACE, 2));
    }
    text.extend(random.soup(WHITESPACE, 4));
    text
}

fn definition(random: &mut Random) -> Vec<u8> {
    const PIECES: &[&str] = &[
        "]", "]:", ":", "^", "a", " ", "[", "\\", "é", "\n", "\t", "note", "]: url",
    ];
    let mut line = random
        .pick(&["[", "[", "[^", "[a", "[^a", "", " ["])
        .as_bytes()
        .to_vec();
    line.extend(random.soup(PIECES, 6));
    line
}

fn marker(random: &mut Random) -> Vec<u8> {
    loop {
        let line = match random.below(8) {
            0..=2 => bullet(random),
            3..=6 => number(random),
            _ => random.soup(
                &[
                    "-", "*", "+", ":", "(", ")", ".", "i", "1", "a", " ", "[", "]",
                ],
                6,
            ),
        };
        // A break is asked for before a marker, so the marker's function never sees one.
        if !is_break(&line) {
            return line;
        }
    }
}

/// A line of only dashes, stars and whitespace with three marks or more.
pub fn is_break(line: &[u8]) -> bool {
    let marks = line.iter().filter(|b| matches!(b, b'-' | b'*')).count();
    let spaces = line.iter().filter(|b| b.is_ascii_whitespace()).count();
    marks >= 3 && marks + spaces == line.len() && matches!(line[0], b'-' | b'*')
}

fn bullet(random: &mut Random) -> Vec<u8> {
    let mut line = random.pick(&["-", "*", "+", ":"]).to_string();
    line += random.pick(AFTER);
    if random.once_in(2) {
        line = line[..1].to_string() + random.pick(&[" ", " ", " ", "\t", ""]);
        line += random.pick(&["[", "[", "[", "", "("]);
        line += random.pick(&["x", "X", " ", "y", "", "é", "]"]);
        line += random.pick(&["]", "]", "]", "", ")"]);
        line += random.pick(AFTER);
    }
    line.into_bytes()
}

fn number(random: &mut Random) -> Vec<u8> {
    let mut line = random.pick(&["", "", "("]).to_string();
    line += &match random.below(5) {
        0 => {
            let len = random.pick(&[1, 1, 2, 3, 17, 18, 19, 20, 21]);
            let digits = random.pick(&["9", "0", "0123456789"]);
            letters(random, digits, len)
        }
        1 | 2 => {
            let len = random.pick(&[1, 1, 1, 2, 3, 4, 11, 12, 13, 14, 15]);
            let digits = random.pick(&["ivxlcdm", "IVXLCDM", "ivx", "MDC", "ivxIVX", "ivxa"]);
            letters(random, digits, len)
        }
        3 => letters(random, "abcdefghijklmnopqrstuvwxyz", 1),
        _ => {
            let len = random.pick(&[1, 1, 1, 2, 0]);
            letters(random, "ABCDEFGHIJKLMNOPQRSTUVWXYZabz@[`{/:", len)
        }
    };
    line += random.pick(&[".", ".", ".", ")", ")", ")", ")", "", ":", ".)"]);
    line += random.pick(AFTER);
    line.into_bytes()
}

fn letters(random: &mut Random, from: &str, len: usize) -> String {
    let from = from.as_bytes();
    (0..len).map(|_| char::from(random.pick(from))).collect()
}

/// Two list types; the second is often near the first, so that continuing is really asked.
fn list_types(random: &mut Random) -> Vec<u8> {
    let first = list_type(random);
    let (first, second) = match random.below(4) {
        0 => (first, first),
        1 if first[0] == 2 => (first, ordered(random, first[2], first[3])),
        1 | 2 => {
            // A letter beside a roman number of the same case and style.
            let case = random.below(2) as u8;
            let style = random.below(3) as u8;
            let letter = ordered(random, 2 + case, style);
            (letter, ordered(random, 4 + case, style))
        }
        _ => (first, list_type(random)),
    };
    if random.once_in(2) {
        [first, second].concat()
    } else {
        [second, first].concat()
    }
}

fn list_type(random: &mut Random) -> [u8; TYPE_LEN] {
    match random.pick(&[1, 2, 2, 2, 3, 4]) {
        2 => {
            let (numbering, style) = (random.between(1, 5), random.below(3));
            ordered(random, numbering as u8, style as u8)
        }
        kind => {
            let bullet = random.pick(b"-*+");
            let mut bytes = [0; TYPE_LEN];
            bytes[0] = kind;
            bytes[1] = if kind == 4 { 0 } else { bullet };
            bytes
        }
    }
}

fn ordered(random: &mut Random, numbering: u8, style: u8) -> [u8; TYPE_LEN] {
    let mut bytes = [0; TYPE_LEN];
    bytes[..4].copy_from_slice(&[2, 0, numbering, style]);
    bytes[4..].copy_from_slice(&value(random, numbering).to_le_bytes());
    bytes
}

/// A value that a number of the numbering can have, mostly where letter and roman meet.
fn value(random: &mut Random, numbering: u8) -> u64 {
    const ROMAN_DIGITS: &[u64] = &[1, 5, 10, 50, 100, 500, 1000];
    const THEIR_LETTERS: &[u64] = &[9, 22, 24, 12, 3, 4, 13];
    let near = random.pick(&[0, 0, 1, 2]);
    match numbering {
        1 => match random.below(3) {
            0 => random.next() % 10_000_000_000_000_000_000,
            1 => 9_999_999_999_999_999_999 - near,
            _ => random.pick(ROMAN_DIGITS) + near,
        },
        2 | 3 if random.once_in(4) => random.between(1, 26) as u64,
        2 | 3 => random.pick(THEIR_LETTERS) + 1 - near,
        _ if random.once_in(8) => random.between(1, 13_000) as u64,
        _ => random.pick(ROMAN_DIGITS) + [0, 1, 0][near as usize],
    }
}

/// A set of attributes, or nearly one, or bytes of the machine's classes.
fn attributes(random: &mut Random) -> Vec<u8> {
    const CLASSES: &[&str] = &[
        "{", "}", ".", "#", "%", "=", "\"", "\\", "\n", " ", "\t", "\r", "\x0c", "a", "_", "-",
        ":", "7", "é", "$", "\x0b",
    ];
    const ELEMENTS: &[&str] = &[
        ".a",
        "#b",
        "k=v",
        "k=\"v\"",
        "k=\"\"",
        "k=\"v w\"",
        "k=\"v\\\"w\"",
        "k=\"v\nw\"",
        "k=\"v\n w\"",
        "k=\"v\\\nw\"",
        "k=\"v\n\\\"",
        "k=\"\n\n\"",
        "%c%",
        "%%",
        "%c\nd%",
        "%\n\n%",
        "%c",
        "k",
        "k=\"v",
        "k=\"\\\\\"",
        "a:b=c_d",
        "%}",
        "k=\"}\"",
        ".a-b:c_9",
        "#_",
        "k=7 ",
    ];
    let mut set = random
        .pick(&["{", "{", "{", "{", "", "{{"])
        .as_bytes()
        .to_vec();
    if random.once_in(4) {
        set.extend(random.soup(CLASSES, 10));
        return set;
    }
    for _ in 0..random.below(4) {
        set.extend(random.pick(ELEMENTS).bytes());
        set.extend(random.pick(&["", " ", " ", " ", "\n", "\t"]).bytes());
    }
    set.extend(
        random
            .pick(&["}", "}", "}", "", "} ", "}\n", "}{.a}", "}}"])
            .bytes(),
    );
    if random.once_in(5) {
        let place = random.below(set.len() + 1);
        set.splice(place..place, random.pick(CLASSES).bytes());
    }
    set
}

/// The bytes of a row after its first pipe.
fn row(random: &mut Random) -> Vec<u8> {
    const PIECES: &[&str] = &[
        "|", "|", "|", "|", "|", "\\", "`", "`", "``", "```", "````", "-", "--", ":", ":-", "-:",
        ":-:", "::", " ", " ", "\t", "a", "b c", "é", "\\|", "\\`", "\\\\", "\r", "\x0c", "\x0b",
        "{-", "-}", "*}", "[", "]", "!", ".", "=", "\\a", "\\ ",
    ];
    const SEPARATORS: &[&str] = &[
        "-|", ":-|", "-:|", ":-:|", "---|", " - |", ":--|", "\t-|", "--:|", ": -|", ":|", "|",
        "::|",
    ];
    let mut bytes = match random.below(4) {
        0 => random.soup(SEPARATORS, 4),
        1 => random.soup(&["`", "``", "|", "\\", "a"], 10),
        _ => random.soup(PIECES, 14),
    };
    bytes.extend(
        random
            .pick(&["|", "|", "|", "|\n", "| ", "|\r\n", "", "\n|", " \n"])
            .bytes(),
    );
    bytes
}
