//! Generates two editions of a text, with their events, right and wrong, and what their comparison is lent: chosen ones first.

use crate::frames::{Edition, PairFrame};
use crate::gen_text;
use crate::gen_words;
use crate::random::Random;
use crate::words::{parsed, WORDS_PER_EVENT};

/// The longest text that is drawn.
const LONGEST: usize = 1_200;

/// No limit on bytes that matters.
const ANY_LENGTH: u16 = u16::MAX;
const LIMIT: u16 = 32;

/// Pairs that show a rule each: the older text and the newer.
const CHOSEN: &[(&str, &str)] = &[
    ("", ""),
    ("a\n", "a\n"),
    ("", "a\n"),
    ("a\n", ""),
    ("a\n", "b\n"),
    // The front is dropped first, the back from what it leaves.
    ("a\n\na\n", "a\n"),
    ("a\n", "a\n\na\n"),
    ("a\n\na\n\na\n", "a\n\na\n"),
    ("a\n\nb\n\na\n", "a\n\na\n"),
    // A block put in, taken out, changed, moved, doubled.
    (
        "# Restart\n\nDrain.\n\nWait.\n",
        "# Restart\n\nDrain.\n\nAsk first.\n\nWait.\n",
    ),
    (
        "# Restart\n\nDrain.\n\nAsk first.\n\nWait.\n",
        "# Restart\n\nDrain.\n\nWait.\n",
    ),
    (
        "# Restart\n\nDrain.\n\nWait.\n",
        "# Restart\n\nDrain all.\n\nWait.\n",
    ),
    ("a\n\nb\n\nc\n", "b\n\nc\n\na\n"),
    ("a\n\n---\n\nb\n", "a\n\n---\n\n---\n\nb\n"),
    // A heading by itself, without its section; headings that others stand in.
    ("# a\n\nb\n", "# c\n\nb\n"),
    ("# a\n## b\nc\n", "# a\n### b\nc\n"),
    ("# a\n\nb\n\n## c\n\nd\n", "# a\n\nb\n\n## c\n\ne\n"),
    // A list as one block, its blank lines in it.
    ("- a\n- b\n- c\n", "- a\n- x\n- c\n"),
    ("- a\n\n- b\n\nc\n", "- a\n\n- b\n\nd\n"),
    ("- a\n- b\n", "- a\n* b\n"),
    ("1. a\n2. b\n\n3. c\n", "1. a\n2. b\n"),
    (": a\n\n  b\n\n: c\n\n  d\n", ": a\n\n  b\n\n: c\n\n  e\n"),
    // Blank lines and attributes are blocks.
    ("a\n\nb\n", "a\n\n\nb\n"),
    ("a\n\n\nb\n", "a\n\nb\n"),
    ("{.a}\nb\n", "{.c}\nb\n"),
    ("# a\n\n{.b}\n# c\n", "# a\n\n{.d}\n# c\n"),
    // The first line counts with its indent, the last one with its newline.
    ("a\n\n  b\n", "a\n\n b\n"),
    ("a\n\n - b\n", "a\n\n  - b\n"),
    ("a\n\nb\n", "a\n\nb"),
    ("a", "a\n"),
    // A fence left open takes the rest.
    ("```\na\n```\n\nb\n", "```\na\n``\n\nb\n"),
    ("|a|b|\n|-|-|\n\n^ c\n\nd\n", "|a|b|\n|-|-|\n\n^ e\n\nd\n"),
    ("> a\n\n[b]: c\n\n[^d]: e\n", "> a\n\n[b]: f\n\n[^d]: e\n"),
    ("::: a\nb\n:::\nc\n", "::: a\nb\n:::\nd\n"),
];

/// The text whose events are damaged in every way, and that is refused for every reason but sections; Stale ones are among its events.
const SHOWN: &[u8] = b": a\n";

/// Blocks of a runbook, and what may join or part them.
const PIECES: &[&str] = &[
    "\n",
    "\n",
    "\n",
    "\n",
    "\n",
    "\n\n",
    " \n",
    "a\n",
    "a\n",
    "b\n",
    "a\nb\n",
    "Drain the node.\n",
    "Wait.\n",
    "  a\n",
    "# Restart\n",
    "# a\n",
    "## a\n",
    "## Check\n",
    "### b\n",
    " # a\n",
    "# a\nb\n",
    "- a\n",
    "- b\n",
    "- a\n- b\n",
    "- a\n\n- b\n",
    " - a\n",
    "  - b\n",
    "* a\n",
    "+ a\n\n  b\n",
    "1. Drain\n2. Restart\n",
    "1. a\n\n   b\n\n2. c\n",
    "2. a\n",
    "a. b\n",
    "i) c\n",
    "- [ ] a\n- [x] b\n",
    "- a\n  - b\n\n  - c\n",
    "{.warning}\n",
    "{#a k=\"v\"}\n",
    "{.a}\n",
    " {.b}\n",
    "{.a}\n# b\n",
    "> a\n",
    "> a\nb\n",
    "> # a\n> - b\n",
    ">\n",
    "```\na\n\n```\n",
    "``` sh\nreboot\n",
    "```\n",
    "~~~ =html\na\n\n~~~\n",
    ":::\n",
    "::: note\na\n\nb\n:::\n",
    "|a|b|\n|-|:-|\n|c|d|\n",
    "|a|\n",
    "|a|\n\n^ b\n",
    "^ c\n",
    "|-|\n",
    "[a]: b\n",
    "[a]: b\n c\n",
    "[^a]: b\n",
    "[^a]: b\n\n  c\n",
    ": a\n\n  b\n",
    ": a\n",
    ": a\n\n  b\n\n: c\n\n  d\n",
    ":\n  a\n",
    "---\n",
    "* * *\n",
    " \t---\n",
    "-\n",
    "#\n",
    "\r\n",
    "a\r\n",
    "\x0cb\n",
];

fn word(count: usize) -> u16 {
    u16::try_from(count).expect("the texts are short enough")
}

/// The words of the text's events, Stale ones among them; none where the text is refused.
fn right(text: &[u8]) -> Vec<u32> {
    parsed(&gen_words::plain(text), false).map_or_else(
        |_| Vec::new(),
        |parsed| parsed.events.as_flattened().to_vec(),
    )
}

fn edition(text: &[u8]) -> Edition {
    let (text, given) = (text.to_vec(), right(text));
    Edition { text, given }
}

/// The texts with their events, and exactly the words that they need within the limits.
fn fitted(older: &[u8], newer: &[u8], nesting: u16, sections: u16) -> PairFrame {
    let capped = |limit: u16| limit.min(LIMIT) as u8;
    let needed = |text: &[u8]| gen_words::fitted(text.to_vec(), capped(nesting), capped(sections));
    let (one, other) = (needed(older), needed(newer));
    PairFrame {
        op: b'w',
        limit: ANY_LENGTH,
        nesting,
        sections,
        line_words: word(one.line_words.max(other.line_words) as usize),
        event_words: word(one.event_words.max(other.event_words) as usize),
        older: edition(older),
        newer: edition(newer),
    }
}

/// The same with the usual limits.
pub fn plain(older: &[u8], newer: &[u8]) -> PairFrame {
    let frame = fitted(older, newer, LIMIT, LIMIT);
    PairFrame { op: b'c', ..frame }
}

// ---- texts

/// Some blocks, a text that is cut into whole lines.
type Pieces = Vec<Vec<u8>>;

fn piece(random: &mut Random) -> Vec<u8> {
    match random.below(4) {
        0 => gen_text::piece(random),
        _ => random.pick(PIECES).into(),
    }
}

/// Pieces of any kind, or a few kinds over and over.
fn pieces(random: &mut Random) -> Pieces {
    let count = random.pick(&[0, 1, 2, 3, 4, 5, 6, 8, 12]);
    if random.once_in(2) {
        return (0..count).map(|_| piece(random)).collect();
    }
    let kinds: Pieces = (0..random.between(1, 3)).map(|_| piece(random)).collect();
    let kinds: Vec<&[u8]> = kinds
        .iter()
        .map(|kind| &kind[..])
        .chain([&b"\n"[..]])
        .collect();
    (0..count).map(|_| random.pick(&kinds).to_vec()).collect()
}

/// One line of a piece changed: a letter more, an indent more or less.
fn change_line(random: &mut Random, piece: &mut Vec<u8>) {
    let mut lines: Pieces = piece
        .split_inclusive(|b| *b == b'\n')
        .map(<[u8]>::to_vec)
        .collect();
    if lines.is_empty() {
        return;
    }
    let place = random.below(lines.len());
    let line = &mut lines[place];
    match random.below(4) {
        0 => drop(line.splice(0..0, random.pick(&[" ", "  ", "\t", "> ", "- "]).bytes())),
        1 if line[0] == b' ' => drop(line.remove(0)),
        2 => drop(lines.remove(place)),
        _ => line.insert(line.len() - 1, random.pick(b"ax ")),
    }
    *piece = lines.concat();
}

/// One edit: of a piece, of a line in it, or of any byte.
fn edit(random: &mut Random, pieces: &mut Pieces) {
    let place = random.below(pieces.len() + 1);
    let here = place..pieces.len().min(place + 1);
    match random.below(12) {
        0 | 1 => pieces.insert(place, piece(random)),
        2 => drop(pieces.drain(here)),
        3 => drop(pieces.splice(here, [piece(random)])),
        4 => {
            let moved: Pieces = pieces.drain(here).collect();
            let place = random.below(pieces.len() + 1);
            drop(pieces.splice(place..place, moved));
        }
        5 => {
            let doubled = pieces[here].to_vec();
            drop(pieces.splice(place..place, doubled));
        }
        6 => pieces.insert(place, b"\n".to_vec()),
        7 => drop(pieces.drain(place..random.between(place, pieces.len()))),
        8 => {
            let mut text = pieces.concat();
            gen_text::damage(&mut text, random);
            *pieces = vec![text];
        }
        9 => {
            let mut text = pieces.concat();
            text.pop();
            *pieces = vec![text];
        }
        _ => pieces[here]
            .iter_mut()
            .for_each(|piece| change_line(random, piece)),
    }
}

/// Two editions of a text.
fn texts(random: &mut Random, index: u64) -> (Vec<u8>, Vec<u8>) {
    let mut older = match random.below(30) {
        0 => vec![gen_words::text(random, 0)],
        1 => vec![gen_text::nested(random)],
        2 => vec![gen_text::sections(random)],
        _ => pieces(random),
    };
    if random.once_in(40) {
        older = (0..random.between(20, 60)).map(|_| piece(random)).collect();
    }
    let mut newer = older.clone();
    match random.below(16) {
        0 => {}
        1 => newer = pieces(random),
        2 if index % 8 == 0 => (older, newer) = (Pieces::new(), Pieces::new()),
        _ => (0..random.pick(&[1, 1, 1, 2, 3])).for_each(|_| edit(random, &mut newer)),
    }
    let mut pair = [older, newer].map(|pieces| {
        let mut text = pieces.concat();
        text.truncate(LONGEST);
        text
    });
    if random.once_in(2) {
        pair.reverse();
    }
    pair.into()
}

// ---- events

const STALE: [u32; WORDS_PER_EVENT] = [0; WORDS_PER_EVENT];

fn any_word(random: &mut Random) -> u32 {
    let any = random.next() as u32;
    random.pick(&[0, 1, 1, 2, 3, 4, 14, 15, 32, 254, 255, 256, u32::MAX, any])
}

fn any_event(random: &mut Random) -> [u32; WORDS_PER_EVENT] {
    let node = random.below(23) as u32;
    let (start, end) = (random.below(9) as u32, random.below(9) as u32);
    [
        random.below(5) as u32,
        node,
        start,
        end,
        any_word(random),
        0,
        0,
        0,
    ]
}

/// An event of role 0 that is not Stale.
fn odd_stale(random: &mut Random) -> [u32; WORDS_PER_EVENT] {
    let mut event = STALE;
    event[random.between(1, 7)] = random.pick(&[1, 1, 255, u32::MAX]);
    event
}

/// Puts an event in before the `place`-th.
fn put(words: &mut Vec<u32>, place: usize, event: [u32; WORDS_PER_EVENT]) {
    let at = place * WORDS_PER_EVENT;
    drop(words.splice(at..at, event));
}

/// One damage to a list of events, or what looks like one.
fn damage(random: &mut Random, words: &mut Vec<u32>) {
    let count = words.len() / WORDS_PER_EVENT;
    let place = random.below(count + 1);
    let at = place * WORDS_PER_EVENT;
    let here = at..words.len().min(at + WORDS_PER_EVENT);
    match random.below(16) {
        0..=3 => put(words, place, STALE),
        4 => {
            let place = random.below(words.len() + 1);
            words[place..]
                .iter_mut()
                .take(1)
                .for_each(|w| *w = any_word(random));
        }
        5 => {
            let (place, more) = (random.below(words.len() + 1), random.pick(&[1, u32::MAX]));
            words[place..]
                .iter_mut()
                .take(1)
                .for_each(|w| *w = w.wrapping_add(more));
        }
        6 => drop(words.drain(here)),
        7 => drop(words.splice(at..at, words[here].to_vec())),
        8 => put(words, place, any_event(random)),
        9 => put(words, place, odd_stale(random)),
        10 => (0..random.between(1, 7)).for_each(|_| words.push(any_word(random))),
        11 => words.truncate(random.below(words.len() + 1)),
        12 => words.truncate(at),
        13 => words.resize(words.len() + random.between(1, 24), 0),
        14 => {
            let live = words
                .chunks(WORDS_PER_EVENT)
                .filter(|event| *event != STALE);
            *words = live.flatten().copied().collect();
        }
        _ => words[here].fill(0),
    }
}

// ---- frames

/// The number, or one less, or any below it, or more.
fn near(random: &mut Random, number: u16) -> u16 {
    match random.below(40) {
        0 => random.below(usize::from(number) + 1) as u16,
        1 => number.saturating_sub(1),
        2..=4 => number + random.pick(&[1, 2, 7, 8, 64]),
        _ => number,
    }
}

fn limit(random: &mut Random) -> u16 {
    match random.below(16) {
        0 => random.pick(&[0, 1, 1, 2, 3, 31, 33, 65_535]),
        1 => random.between(0, 40) as u16,
        _ => LIMIT,
    }
}

fn drawn(random: &mut Random, index: u64) -> PairFrame {
    let (older, newer) = texts(random, index);
    let mut frame = fitted(&older, &newer, limit(random), limit(random));
    frame.op = random.pick(b"wwwc");
    if random.once_in(24) {
        let len = random.pick(&[older.len(), newer.len()]);
        frame.limit = near(random, word(len));
    }
    for edition in [&mut frame.older, &mut frame.newer] {
        if random.once_in(5) {
            (0..random.pick(&[1, 1, 1, 2, 4])).for_each(|_| damage(random, &mut edition.given));
        }
    }
    PairFrame {
        line_words: near(random, frame.line_words),
        event_words: near(random, frame.event_words),
        ..frame
    }
}

/// The shown text with damaged events, as the older edition and as the newer.
fn both(damage: impl Fn(&mut Vec<u32>)) -> [PairFrame; 2] {
    let (mut first, mut second) = (plain(SHOWN, b""), plain(b"", SHOWN));
    damage(&mut first.older.given);
    damage(&mut second.newer.given);
    [first, second]
}

/// Each damage of the shown text's events.
fn damaged() -> Vec<PairFrame> {
    let mut frames = Vec::new();
    let count = right(SHOWN).len() / WORDS_PER_EVENT;
    for place in 0..=count {
        let at = place * WORDS_PER_EVENT;
        let mut odd = STALE;
        odd[1 + place % 7] = 1;
        frames.extend(both(|given| put(given, place, STALE)));
        frames.extend(both(|given| put(given, place, odd)));
        frames.extend(both(|given| given.truncate(at)));
        if place < count {
            frames.extend(both(|given| drop(given.drain(at..at + WORDS_PER_EVENT))));
            frames.extend(both(|given| given[at + place % 8] += 1));
        }
    }
    for more in [1, 7, 8, 9] {
        frames.extend(both(|given| given.extend(vec![0; more])));
        frames.extend(both(|given| given.extend(vec![1; more])));
    }
    frames
}

/// What is lent and each limit at what is needed, and one below, in the older edition and in the newer; each also with no events given, for the
/// order of refusals.
fn limited() -> Vec<PairFrame> {
    let less: [fn(&mut PairFrame); 6] = [
        |_| (),
        |frame| frame.limit -= 1,
        |frame| frame.line_words -= 1,
        |frame| frame.event_words -= 1,
        |frame| frame.nesting -= 1,
        |frame| frame.sections -= 1,
    ];
    let texts = [SHOWN, b"# a\n## b\n"];
    let pairs = texts
        .iter()
        .flat_map(|text| [(*text, &b""[..]), (b"", *text)]);
    let frames = pairs.flat_map(|(older, newer)| {
        let mut frame = fitted(older, newer, 1, 2);
        frame.limit = word(older.len().max(newer.len()));
        less.map(|lessen| {
            let mut frame = frame.clone();
            lessen(&mut frame);
            frame
        })
    });
    let without = |frame: PairFrame| {
        let mut none = frame.clone();
        none.older.given.clear();
        none.newer.given.clear();
        [frame, none]
    };
    frames.flat_map(without).collect()
}

/// Texts at the usual limits and one past them.
fn deep() -> impl Iterator<Item = PairFrame> {
    let limit = usize::from(LIMIT);
    let sections = |n: usize| (1..=n).map(|level| "#".repeat(level) + "\n").collect();
    let texts: [String; 4] = [
        "> ".repeat(limit) + "a\n",
        "> ".repeat(limit + 1) + "a\n",
        sections(limit),
        sections(limit + 1),
    ];
    texts.into_iter().map(|text| plain(b"", text.as_bytes()))
}

/// The chosen ones, then so many drawn ones, those with a text that is too long left out.
pub fn frames(
    random: &mut Random,
    count: u64,
    longest: usize,
) -> impl Iterator<Item = PairFrame> + '_ {
    let chosen = CHOSEN
        .iter()
        .map(|(older, newer)| plain(older.as_bytes(), newer.as_bytes()));
    let chosen = chosen.chain(damaged()).chain(limited()).chain(deep());
    let drawn = (0..count).map(|index| drawn(random, index));
    let short =
        move |frame: &PairFrame| frame.older.text.len().max(frame.newer.text.len()) <= longest;
    chosen.chain(drawn.filter(short).filter(PairFrame::fits_reviews))
}
