//! Generates sets of attributes, good and damaged, with what is lent and asked for them: chosen ones first.

use crate::frames::SetFrame;
use crate::random::Random;
use crate::sets::fitted;

/// The most that the program `openings` lends of anything.
const ROOM: usize = 1_024;

/// Sets and a key to ask each for: each rule of RULES J, each refusal.
const CHOSEN: &[(&str, &str)] = &[
    ("{.a}", "class"),
    ("{#a}", "id"),
    ("{k=v}", "k"),
    ("{%c%}", "c"),
    ("{}", ""),
    ("{.a}{.b}", "class"),
    ("{.a class=b .c}", "class"),
    ("{#a id=b #c}", "id"),
    ("{k=a x=y k=b}", "k"),
    ("{class=\"\"}", "class"),
    ("{class=\"\" .a}", "class"),
    ("{k=\"\"}", "k"),
    ("{k=\"v w\"}", "k"),
    ("{k=\"v\nw\"}", "k"),
    ("{k=\"v\n\n  w\"}", "k"),
    ("{k=\"\nw\n\"}", "k"),
    ("{k=\"\\\"\\\\\"}", "k"),
    ("{a=\"b\\\nc\"}", "a"),
    ("{%a\n\nb%}", "a"),
    ("{%\n\n%}", ""),
    ("{%% %c}", ""),
    ("{#a k=b .c %d% id=e class=f}", "k"),
    ("{b=1 a=2 ab=3 a=4 b=5}", "b"),
    ("{.a}\n\t ", "class"),
    (" {.a}", "class"),
    ("{.a} x", "class"),
    ("{.a}{", "class"),
    ("{.a", "class"),
    ("{.a $}", "class"),
    ("{k=\"a", "k"),
    ("", "class"),
];

const NAMES: &[&str] = &[
    "a", "b", "k", "class", "id", "clas", "classy", "Class", "a-b", "x:y", "_", "7", "aa", "ab",
];

const BETWEEN: &[&str] = &[" ", " ", " ", "\n", "\t", "  ", "\r\n", "\x0c", ""];

const QUOTED: &[&str] = &[
    "a", "b c", "\\\"", "\\\\", "\n", "\n", "\n\n", " ", "é", "}", "{", "%", "=", ".", "\\\n",
    "\\a", "\r\n",
];

const COMMENTED: &[&str] = &["a", "\n", "\n", "\n\n", " ", "\"", "é", ".", "=", "{", "\\"];

const SIGNS: &[&str] = &[
    "{", "}", ".", "#", "%", "=", "\"", "\\", "\n", " ", "a", "$", "\x0b",
];

fn name(random: &mut Random) -> Vec<u8> {
    random.pick(NAMES).into()
}

fn element(random: &mut Random) -> Vec<u8> {
    let key = name(random);
    match random.below(7) {
        0 | 1 => [b".", &key[..]].concat(),
        2 => [b"#", &key[..]].concat(),
        3 => [&key[..], b"=", &name(random)].concat(),
        4 => [&key[..], b"=\"", &random.soup(QUOTED, 6), b"\""].concat(),
        5 => [b"class=\"", &random.soup(QUOTED, 3)[..], b"\""].concat(),
        _ => [b"%", &random.soup(COMMENTED, 5)[..], b"%"].concat(),
    }
}

/// One set or more.
fn set(random: &mut Random) -> Vec<u8> {
    let most = match random.below(400) {
        0 => 40,
        _ => random.pick(&[2, 3, 4, 4, 6, 12]),
    };
    let mut set = Vec::new();
    for _ in 0..random.pick(&[1, 1, 1, 1, 2, 3]) {
        set.push(b'{');
        for _ in 0..random.below(most + 1) {
            set.extend(element(random));
            set.extend(random.pick(BETWEEN).bytes());
        }
        set.push(b'}');
    }
    if random.once_in(4) {
        set.extend(random.soup(BETWEEN, 3));
    }
    set
}

fn damage(random: &mut Random, set: &mut Vec<u8>) {
    let place = random.below(set.len() + 1);
    match random.below(4) {
        0 => set.truncate(place),
        1 => set.insert(place, random.any_byte()),
        2 => drop(set.drain(place..set.len().min(place + 1))),
        _ => drop(set.splice(place..place, random.pick(SIGNS).bytes())),
    }
}

/// The number, or one less, or any below it, or more.
fn near(random: &mut Random, number: usize) -> usize {
    let near = match random.below(16) {
        0 => random.below(number + 1),
        1 => number.saturating_sub(1),
        2 => number + random.between(1, 6),
        _ => number,
    };
    near.min(ROOM)
}

fn drawn(random: &mut Random) -> SetFrame {
    let mut set = set(random);
    if random.once_in(5) {
        damage(random, &mut set);
    }
    let any = name(random);
    let key = random.pick(&[&b"class"[..], b"id", &any, &any]);
    let op = random.pick(b"rvpjt");
    let frame = fitted(op, &set, key, random.pick(&[0, 1, 2, 3, 65_535]));
    SetFrame {
        elements: near(random, frame.elements),
        pieces: near(random, frame.pieces),
        places: near(random, frame.places),
        spare: near(random, frame.spare),
        bytes: near(random, frame.bytes),
        ..frame
    }
}

/// All questions to a chosen set with what they need; and with one less of each.
fn chosen() -> impl Iterator<Item = SetFrame> {
    CHOSEN.iter().flat_map(|(set, key)| {
        let ask = |op| fitted(op, set.as_bytes(), key.as_bytes(), 0);
        let mut short = [b'r', b'r', b'p', b'j', b't'].map(ask);
        let [elements, pieces, places, value, text] = &mut short;
        let lessen = |room: &mut usize| *room = room.saturating_sub(1);
        lessen(&mut elements.elements);
        lessen(&mut pieces.pieces);
        lessen(&mut places.places);
        lessen(&mut value.bytes);
        lessen(&mut text.bytes);
        let mut second = ask(b't');
        second.place = 1;
        let whole = [b'r', b'v', b'p', b'j', b't'].map(ask);
        whole.into_iter().chain([second]).chain(short)
    })
}

/// The chosen ones, then so many drawn ones.
pub fn frames(random: &mut Random, count: u64) -> impl Iterator<Item = SetFrame> + '_ {
    chosen().chain((0..count).map(|_| drawn(random)))
}
