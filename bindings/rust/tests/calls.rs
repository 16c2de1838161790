//! Calls every function on good and bad input, with marks around every buffer that is lent.

use std::fmt::Debug;
use std::thread;
use tolphaneap::{list, page, parse, read, room, write};
use tolphaneap::{Alignment, Atom, Bullet, Event, Events, Node, Numbering, Style};
use tolphaneap::{Mode, Moved, Page, Parsed, Records, Refusal, Refused};

// ---- lent memory

const WORD: u32 = 0xdead_beef;
const BYTE: u8 = 0xa5;
const MARGIN: usize = 16;

/// A buffer with marks on both sides.
struct Marked<T> {
    all: Vec<T>,
    mark: T,
}

impl<T: Copy + PartialEq + Debug> Marked<T> {
    fn holding(items: &[T], mark: T) -> Self {
        let marks = [mark; MARGIN];
        let all = [&marks, items, &marks].concat();
        Self { all, mark }
    }

    /// Marks inside as well.
    fn empty(len: usize, mark: T) -> Self {
        Self::holding(&vec![mark; len], mark)
    }

    fn lent(&mut self) -> &mut [T] {
        let end = self.all.len() - MARGIN;
        &mut self.all[MARGIN..end]
    }

    /// What is inside, where the marks are still around it.
    fn left(mut self) -> Vec<T> {
        let inside = self.lent().to_vec();
        assert_eq!(self.all[..MARGIN], [self.mark; MARGIN]);
        assert_eq!(self.all[MARGIN + inside.len()..], [self.mark; MARGIN]);
        inside
    }
}

fn all_are<T: PartialEq>(items: &[T], item: T) -> bool {
    items.iter().all(|i| *i == item)
}

fn refused<T>(refusal: Refusal, position: usize) -> Result<T, Refused> {
    Err(Refused { refusal, position })
}

const MODES: [Mode; 2] = [Mode::Short, Mode::Full];

type Parse = Result<Parsed, Refused>;
type Move = Result<Moved, Refused>;

/// A parse in so many line and event words: its answer, and both.
fn parse_in(text: &[u8], line_words: usize, event_words: usize) -> (Parse, Vec<u32>, Vec<u32>) {
    let mut from = Marked::holding(text, BYTE);
    let mut lines = Marked::empty(line_words, WORD);
    let mut events = Marked::empty(event_words, WORD);
    let answer = parse(from.lent(), lines.lent(), events.lent());
    assert_eq!(from.left(), text);
    (answer, lines.left(), events.left())
}

/// A call from words to so many bytes: its answer, and the bytes.
fn to_bytes(
    call: impl Fn(&[u32], &mut [u8]) -> Move,
    words: &[u32],
    len: usize,
) -> (Move, Vec<u8>) {
    let mut from = Marked::holding(words, WORD);
    let mut to = Marked::empty(len, BYTE);
    let answer = call(from.lent(), to.lent());
    assert_eq!(from.left(), words);
    (answer, to.left())
}

/// A stream read into so many words: the answer, and the words.
fn read_in(bytes: &[u8], len: usize) -> (Move, Vec<u32>) {
    let mut from = Marked::holding(bytes, BYTE);
    let mut to = Marked::empty(len, WORD);
    let answer = read(from.lent(), to.lent());
    assert_eq!(from.left(), bytes);
    (answer, to.left())
}

// ---- W2, the text `a\n` (E1, N4, V4)

#[rustfmt::skip]
const W2: [u32; 40] = [
    1, 1, 0, 0, 0, 0, 0, 0,
    1, 15, 0, 0, 0, 0, 0, 0,
    3, 0, 0, 1, 0, 0, 0, 0,
    2, 15, 2, 2, 0, 0, 0, 0,
    2, 1, 2, 2, 0, 0, 0, 0,
];

#[rustfmt::skip]
const W2_STREAM: [u8; 35] = [
    33, 0, 0, 0, 0, 0, 0,
    47, 0, 0, 0, 0, 0, 0,
    96, 0, 0, 0, 1, 0, 0,
    79, 2, 0, 0, 2, 0, 0,
    65, 2, 0, 0, 2, 0, 0,
];

const W2_LINES: &str = "\
E Document 0 0
E Paragraph 0 0
I 0 1
X Paragraph 2 2
X Document 2 2
";

const W2_PARSED: Parsed = Parsed {
    length: 2,
    events: 5,
    looks: 1,
};

/// Blank lines around a break, the last right before Document's Exit, and a Stale event.
#[rustfmt::skip]
const BLANKS: [u32; 56] = [
    1, 1, 0, 0, 0, 0, 0, 0,
    4, 1, 0, 1, 0, 0, 0, 0,
    4, 1, 1, 2, 0, 0, 0, 0,
    4, 3, 2, 5, 0, 0, 0, 0,
    0, 0, 0, 0, 0, 0, 0, 0,
    4, 1, 6, 7, 0, 0, 0, 0,
    2, 1, 7, 7, 0, 0, 0, 0,
];

const BLANKS_SHORT: &str = "\
E Document 0 0
A ThematicBreak 2 5
X Document 7 7
";

const BLANKS_FULL: &str = "\
E Document 0 0
A Blankline 0 1
A Blankline 1 2
A ThematicBreak 2 5
A Blankline 6 7
X Document 7 7
";

/// W2 with one word, or one byte of its stream, changed.
fn damaged(index: usize, word: usize, value: u32) -> Vec<u32> {
    let mut words = W2.to_vec();
    words[8 * index + word] = value;
    words
}

fn spoilt(place: usize, value: u8) -> Vec<u8> {
    let mut bytes = W2_STREAM.to_vec();
    bytes[place] = value;
    bytes
}

#[test]
fn a_paragraph_is_as_document_01_shows_it() {
    let page = Page::parse("a\n").expect("a page");
    assert_eq!(page.words(), W2);
    assert_eq!(page.looks(), Some(1));
    assert_eq!(page.stream().expect("a stream"), W2_STREAM);
    for mode in MODES {
        assert_eq!(
            page.listing(mode).expect("a listing"),
            format!("{W2_LINES}looks 1\n")
        );
    }
    let events = [
        Event::Enter(Node::Document, 0..0),
        Event::Enter(Node::Paragraph, 0..0),
        Event::Inline(0..1),
        Event::Exit(Node::Paragraph, 2..2),
        Event::Exit(Node::Document, 2..2),
    ];
    assert_eq!(page.events().collect::<Vec<_>>(), events);
    let read = Page::read(&W2_STREAM).expect("events");
    assert_eq!(
        (read.words(), read.looks()),
        (&W2[..], None),
        "a stream does not say the looks"
    );
    for mode in MODES {
        assert_eq!(read.listing(mode).expect("a listing"), W2_LINES);
    }
    let records: Vec<_> = Records::new(&W2_STREAM).expect("records").collect();
    for (i, record) in records.iter().enumerate() {
        assert_eq!(record.bytes, 7 * i..7 * i + 7);
        assert_eq!(record.event, events[i]);
    }
    assert_eq!(records.len(), 5);
}

// ---- every room

#[test]
fn parsing_fits_any_room() {
    for lines in 0..5 {
        for words in 0..60 {
            let (answer, left, after) = parse_in(b"a\n", lines, words);
            if lines < 2 {
                assert_eq!(answer, refused(Refusal::LinesFull, 0));
                assert!(all_are(&left, WORD) && all_are(&after, WORD));
                continue;
            }
            assert!(all_are(&left, 0));
            if words < 40 {
                let position = if words < 32 { 0 } else { 2 };
                assert_eq!(answer, refused(Refusal::EventsFull, position));
                assert!(all_are(&after, 0));
            } else {
                assert_eq!(answer, Ok(W2_PARSED));
                assert_eq!(after[..40], W2);
                assert!(all_are(&after[40..], 0));
            }
        }
    }
}

#[test]
fn writing_and_reading_fit_any_room() {
    for len in 0..50 {
        let (answer, bytes) = to_bytes(write, &W2, len);
        if len < 35 {
            assert_eq!(answer, refused(Refusal::BytesFull, len / 7));
            assert!(all_are(&bytes, BYTE));
        } else {
            assert_eq!(answer, Ok(Moved { taken: 5, made: 35 }));
            assert_eq!(bytes[..35], W2_STREAM);
            assert!(all_are(&bytes[35..], BYTE));
        }
        let (answer, words) = read_in(&W2_STREAM, len);
        if len < 40 {
            assert_eq!(answer, refused(Refusal::EventsFull, 7 * (len / 8)));
            assert!(all_are(&words, WORD));
        } else {
            assert_eq!(answer, Ok(Moved { taken: 35, made: 5 }));
            assert_eq!(words[..40], W2);
            assert!(all_are(&words[40..], 0));
        }
    }
}

/// How a call that lists `words` does in every room. `events` has the index of the event that each of `lines` is of; where the first line without
/// room is of none, the call is refused at the number of events.
fn fits_any_listing_room(
    call: impl Fn(&[u32], &mut [u8]) -> Move,
    words: &[u32],
    lines: &str,
    events: &[usize],
) {
    let taken = words.len() / 8;
    for len in 0..lines.len() + 9 {
        let (answer, out) = to_bytes(&call, words, len);
        if len < lines.len() {
            let whole = lines.as_bytes().iter().take(len);
            let fit = whole.filter(|byte| **byte == b'\n').count();
            let event = events.get(fit).copied().unwrap_or(taken);
            assert_eq!(answer, refused(Refusal::BytesFull, event));
            assert!(all_are(&out, BYTE));
        } else {
            let made = lines.len();
            assert_eq!(answer, Ok(Moved { taken, made }));
            assert_eq!(out[..made], *lines.as_bytes());
            assert!(all_are(&out[made..], BYTE));
        }
    }
}

/// The same for a list of events, and for a parse of which they are, with looks 1.
fn fits_any_room(mode: Mode, words: &[u32], lines: &str, events: &[usize]) {
    let list = |words: &[u32], out: &mut [u8]| list(mode, words, out);
    let page = |words: &[u32], out: &mut [u8]| page(mode, &Ok(W2_PARSED), words, out);
    fits_any_listing_room(list, words, lines, events);
    fits_any_listing_room(page, words, &format!("{lines}looks 1\n"), events);
}

#[test]
fn listing_fits_any_room() {
    for mode in MODES {
        fits_any_room(mode, &W2, W2_LINES, &[0, 1, 2, 3, 4]);
        let parsed = refused(Refusal::NestedTooDeep, 64);
        let line = b"refused 3 at 64\n";
        for len in 0..20 {
            let (answer, out) =
                to_bytes(|words, out| page(mode, &parsed, words, out), &[7; 8], len);
            if len < line.len() {
                assert_eq!(answer, refused(Refusal::BytesFull, 0));
                assert!(all_are(&out, BYTE));
            } else {
                assert_eq!(answer, Ok(Moved { taken: 0, made: 16 }));
                assert_eq!(out[..16], *line);
            }
        }
    }
}

/// In full a blank line has a line, and is refused where that has no room; in the short listing it has none and needs none.
#[test]
fn blank_lines_are_listed_by_mode() {
    fits_any_room(Mode::Short, &BLANKS, BLANKS_SHORT, &[0, 3, 6]);
    fits_any_room(Mode::Full, &BLANKS, BLANKS_FULL, &[0, 1, 2, 3, 5, 6]);
    // room for all lines but that of the blank line right before Document's Exit
    let (words, made) = ([&BLANKS[..8], &BLANKS[40..]].concat(), 30);
    let listed = |mode| to_bytes(|words, out| list(mode, words, out), &words, made).0;
    assert_eq!(listed(Mode::Full), refused(Refusal::BytesFull, 1));
    assert_eq!(listed(Mode::Short), Ok(Moved { taken: 3, made }));
}

// ---- every refusal

fn headings(levels: usize) -> String {
    (1..=levels)
        .map(|level| "#".repeat(level) + " a\n")
        .collect()
}

#[test]
fn a_parse_is_refused_by_each_number() {
    let zero_or_found = |text: &[u8], lines, events, refusal, position| {
        let (answer, left, after) = parse_in(text, lines, events);
        assert_eq!(answer, refused(refusal, position));
        let word = if refusal.number() <= 2 { WORD } else { 0 };
        assert!(all_are(&left, word) && all_are(&after, word));
    };
    zero_or_found(&vec![b'a'; 16_777_216], 2, 40, Refusal::TextTooLong, 0);
    zero_or_found(&[b'\n'; 8193], 16_384, 16_384, Refusal::LinesFull, 0);
    zero_or_found(&[b'\n'; 2047], 16_384, 16_384, Refusal::EventsFull, 2047);
    zero_or_found(b"a\n\n> - b\n", 6, 8 * 12, Refusal::EventsFull, 3);
    let deep = "> ".repeat(33);
    zero_or_found(deep.as_bytes(), 3, 4097, Refusal::NestedTooDeep, 64);
    let many = headings(33);
    zero_or_found(many.as_bytes(), 66, 4096, Refusal::TooManySections, 624);
    let long = format!("- a\n\n{}", "#".repeat(65_536));
    zero_or_found(long.as_bytes(), 6, 4096, Refusal::HeadingTooLong, 5);
}

#[test]
fn a_page_is_refused_or_given_room() {
    let number = |text: &str| Page::parse(text).map_err(|refused| refused.refusal.number());
    assert_eq!(
        Page::parse(vec![b'\n'; 16_777_216]),
        refused(Refusal::TextTooLong, 0)
    );
    assert_eq!(number(&"> ".repeat(33)), Err(3));
    assert_eq!(number(&headings(33)), Err(4));
    assert_eq!(number(&"#".repeat(65_536)), Err(5));
    assert!(number(&"> ".repeat(32)).is_ok());
    assert!(number(&headings(32)).is_ok());
    assert!(number(&"#".repeat(65_535)).is_ok());
    assert_eq!(Page::parse("").expect("a page").events().count(), 2);
    let longest = Page::parse(vec![b'a'; room::MOST_TEXT]).expect("a page");
    let inline = longest.events().nth(2);
    assert_eq!(inline, Some(Event::Inline(0..room::MOST_TEXT)));
}

/// So many open events and no Exit.
fn nested(depth: u32) -> Vec<u32> {
    let enter = |i| [1, if i == 0 { 1 } else { 2 }, 0, 0, 0, 0, 0, 0];
    (0..depth).flat_map(enter).collect()
}

#[test]
fn bad_events_are_refused_alike_by_all_that_take_them() {
    let not_taken = |words: &[u32], refusal, position| {
        let mut left = vec![to_bytes(write, words, 4096)];
        for mode in MODES {
            let list = |words: &[u32], out: &mut [u8]| list(mode, words, out);
            let page = |words: &[u32], out: &mut [u8]| page(mode, &Ok(W2_PARSED), words, out);
            left.push(to_bytes(list, words, 4096));
            left.push(to_bytes(page, words, 4096));
        }
        for (answer, bytes) in left {
            assert_eq!(answer, refused(refusal, position), "{words:?}");
            assert!(all_are(&bytes, BYTE));
        }
    };
    for len in 0..40 {
        not_taken(&W2[..len], Refusal::CutShort, len / 8);
    }
    not_taken(&[&W2[..], &[0; 3]].concat(), Refusal::CutShort, 5);
    not_taken(&damaged(0, 0, 0), Refusal::NotListed, 0);
    not_taken(&damaged(2, 0, u32::MAX), Refusal::NotListed, 2);
    not_taken(&damaged(1, 1, 22), Refusal::NotListed, 1);
    not_taken(&damaged(2, 2, 2), Refusal::OutOfRange, 2);
    not_taken(&damaged(4, 3, 16_777_216), Refusal::OutOfRange, 4);
    not_taken(&damaged(2, 7, 1), Refusal::OutOfRange, 2);
    not_taken(&damaged(3, 1, 12), Refusal::BadNesting, 3);
    not_taken(&damaged(0, 1, 2), Refusal::BadNesting, 0);
    not_taken(&[W2, W2].concat(), Refusal::BadNesting, 5);
    not_taken(&nested(128), Refusal::CutShort, 128);
    not_taken(&nested(129), Refusal::BadNesting, 128);
}

#[test]
fn bad_streams_are_refused_at_their_record() {
    let not_taken = |bytes: &[u8], refusal, position| {
        let (answer, words) = read_in(bytes, room::read(bytes.len()) + 9);
        assert_eq!(answer, refused(refusal, position));
        assert!(all_are(&words, WORD));
        assert_eq!(Page::read(bytes), refused(refusal, position));
        assert!(Records::new(bytes).is_err());
    };
    for cut in 0..35 {
        not_taken(&W2_STREAM[..cut], Refusal::CutShort, cut - cut % 7);
    }
    not_taken(&spoilt(0, 0), Refusal::NotListed, 0);
    not_taken(&spoilt(14, 255), Refusal::NotListed, 14);
    not_taken(&spoilt(15, 2), Refusal::OutOfRange, 14);
    not_taken(&spoilt(21, 76), Refusal::BadNesting, 21);
    not_taken(&[W2_STREAM, W2_STREAM].concat(), Refusal::BadNesting, 35);
}

#[test]
fn nothing_lent_is_answered_too() {
    assert_eq!(
        parse(&[], &mut [], &mut []),
        refused(Refusal::EventsFull, 0)
    );
    assert_eq!(
        parse(b"a", &mut [], &mut []),
        refused(Refusal::LinesFull, 0)
    );
    assert_eq!(write(&[], &mut []), refused(Refusal::CutShort, 0));
    assert_eq!(write(&W2, &mut []), refused(Refusal::BytesFull, 0));
    assert_eq!(read(&[], &mut []), refused(Refusal::CutShort, 0));
    assert_eq!(read(&W2_STREAM, &mut []), refused(Refusal::EventsFull, 0));
    let parsed = refused(Refusal::EventsFull, 0);
    for mode in MODES {
        assert_eq!(list(mode, &[], &mut []), refused(Refusal::CutShort, 0));
        assert_eq!(list(mode, &W2, &mut []), refused(Refusal::BytesFull, 0));
        let alone = page(mode, &parsed, &[], &mut []);
        assert_eq!(alone, refused(Refusal::BytesFull, 0));
    }
}

#[test]
fn a_refusal_has_its_number_and_says_what_it_is() {
    for (i, refusal) in Refusal::ALL.into_iter().enumerate() {
        assert_eq!(usize::from(refusal.number()), i + 1);
        let position = 9;
        let said = Refused { refusal, position }.to_string();
        assert!(
            said.starts_with(&format!("refused {} at 9: ", i + 1)),
            "{said}"
        );
    }
}

// ---- types

/// A page with every node and atom.
const ALL: &str = "\
{.x}
# a

> b
c

- d
+ [X] e

(iv) f

: g

  h

|i|j|
|:-|-:|
|k|l|
^ m

[^n]: o

[p]: q

::: r
```s
t
```
:::
***
";

#[test]
fn every_node_has_its_type() {
    let page = Page::parse(ALL).expect("a page");
    let entered: Vec<_> = page
        .events()
        .filter_map(|event| match event {
            Event::Enter(node, _) => Some(node),
            _ => None,
        })
        .collect();
    let heading = Node::Heading {
        level: 1,
        has_section: true,
        position: 5,
    };
    let ordered = Node::Ordered {
        tight: true,
        numbering: Numbering::RomanLower,
        style: Style::ParenParen,
        start: 4,
    };
    let list = |bullet| Node::Unordered {
        tight: true,
        bullet,
    };
    let task = |bullet| Node::TaskList {
        tight: true,
        bullet,
    };
    let at = |part: &str| {
        let start = ALL.find(part).expect("it is there");
        start + part.len() - 1..start + part.len()
    };
    for node in [
        Node::Document,
        Node::Blockquote,
        Node::Div { class: at("::: r") },
        list(Bullet::Dash),
        ordered,
        task(Bullet::Plus),
        Node::DescriptionList { tight: true },
        Node::Item,
        Node::TaskItem { checked: true },
        Node::DescriptionItem,
        Node::Footnote { label: at("[^n") },
        Node::Table,
        Node::TableRow { head: true },
        Node::TableRow { head: false },
        Node::Section { heading: 5 },
        Node::Paragraph,
        heading,
        Node::DescriptionTerm,
        Node::TableCell {
            alignment: Alignment::Left,
        },
        Node::TableCell {
            alignment: Alignment::Right,
        },
        Node::Caption,
        Node::LinkDefinition { label: at("[p") },
        Node::CodeBlock { spec: at("```s") },
    ] {
        assert!(entered.contains(&node), "no {node:?} in {entered:?}");
    }
    for atom in [Atom::Blankline, Atom::Attributes, Atom::ThematicBreak] {
        assert!(page
            .events()
            .any(|event| matches!(event, Event::Atom(a, _) if a == atom)));
    }
}

/// A page's stream reads back as its events and is written again as it was; its records lie one behind the other.
fn makes_the_trip(page: &Page) {
    let stream = page.stream().expect("a stream");
    let read = Page::read(&stream).expect("events");
    assert!(read.events().eq(page.events()));
    assert_eq!(read.stream().expect("a stream"), stream);
    let mut end = 0;
    for (record, event) in Records::new(&stream).expect("records").zip(page.events()) {
        assert_eq!((record.bytes.start, record.event), (end, event));
        end = record.bytes.end;
    }
    assert_eq!(end, stream.len());
    let looks = page.looks().expect("it was parsed");
    let [short, full] = MODES.map(|mode| {
        let lines = read.listing(mode).expect("a listing");
        let whole = page.listing(mode).expect("a listing");
        assert_eq!(whole, format!("{lines}looks {looks}\n"));
        lines
    });
    assert_eq!(full.lines().count(), page.events().count());
    let blank = |line: &&str| line.starts_with("A Blankline ");
    let kept = full.split_inclusive('\n').filter(|line| !blank(line));
    assert_eq!(short, kept.collect::<String>());
}

#[test]
fn streams_read_back() {
    for text in ["", "a", ALL, "18446744073709551615. a", "\u{fffd}\n\n: a\n"] {
        makes_the_trip(&Page::parse(text).expect("a page"));
    }
}

// ---- anything at all

/// Numbers that look random, the same in every run.
struct Numbers(u64);

impl Numbers {
    fn below(&mut self, end: usize) -> usize {
        self.0 ^= self.0 << 13;
        self.0 ^= self.0 >> 7;
        self.0 ^= self.0 << 17;
        (self.0 % end as u64) as usize
    }

    fn text(&mut self, len: usize) -> Vec<u8> {
        let bytes = b"  \n\n\n-*+:::>#|||`~^[]{}.()1ivax=\\\"%\t\xff";
        (0..len).map(|_| bytes[self.below(bytes.len())]).collect()
    }
}

#[test]
fn any_text_is_answered() {
    let mut numbers = Numbers(1);
    for _ in 0..20_000 {
        let len = numbers.below(120);
        let text = numbers.text(len);
        let page = Page::parse(&text).expect("too short for a refusal");
        for event in page.events() {
            assert!(text.get(event.span()).is_some(), "{text:?} {event:?}");
        }
        makes_the_trip(&page);
    }
}

#[test]
fn any_stream_and_any_words_are_answered() {
    let mut numbers = Numbers(2);
    let good = Page::parse(ALL).expect("a page");
    let stream = good.stream().expect("a stream");
    for _ in 0..20_000 {
        let mut bytes = stream.clone();
        bytes.truncate(stream.len() - numbers.below(2) * numbers.below(stream.len()));
        let place = numbers.below(bytes.len());
        bytes[place] = numbers.below(256) as u8;
        if let Ok(records) = Records::new(&bytes) {
            assert_eq!(records.last().map(|last| last.bytes.end), Some(bytes.len()));
        }
        let mut words = good.words().to_vec();
        let place = numbers.below(words.len());
        words[place] = numbers.below(40) as u32;
        let (written, _) = to_bytes(write, &words, room::stream(words.len() / 8));
        for mode in MODES {
            let list = |words: &[u32], out: &mut [u8]| list(mode, words, out);
            let (listed, _) = to_bytes(list, &words, room::listing(words.len() / 8));
            assert_eq!(
                written.map(|done| done.taken),
                listed.map(|done| done.taken)
            );
        }
        assert!(Events::new(&words).count() <= words.len() / 8);
    }
}

// ---- what the header promises

#[test]
fn the_room_for_events_is_enough() {
    let texts = [
        ":".to_owned(),
        ": ".repeat(31) + ":",
        ":\n- :\n".repeat(500) + ":",
        ":\n||\n".repeat(500) + ":",
        "|".repeat(3000),
        "|-|\n".repeat(1000) + "|",
        "#\n##\n".repeat(500) + "#",
        "- \n+ \n".repeat(500) + "-",
        "\n".repeat(3000),
    ];
    for text in texts {
        let (answer, _, _) = parse_in(
            text.as_bytes(),
            room::lines(text.len()),
            room::events(text.len()),
        );
        assert!(answer.is_ok(), "{text}");
    }
}

#[test]
fn the_room_for_a_line_is_enough() {
    let far = room::MOST_TEXT as u32;
    let list_enter = [1, 5, far, far, 1, 22, u32::MAX, u32::MAX];
    let mut list_exit = list_enter;
    list_exit[0] = 2;
    let words = [&W2[..8], &list_enter, &list_exit, &W2[32..]].concat();
    let made = |(answer, _): (Move, Vec<u8>)| answer.map(|done| done.made);
    for mode in MODES {
        let list = |words: &[u32], out: &mut [u8]| list(mode, words, out);
        assert_eq!(
            made(to_bytes(list, &words, 400)),
            Ok(30 + 2 * room::MOST_ENTRY)
        );
    }
    assert_eq!(
        made(to_bytes(write, &words, 99)),
        Ok(14 + 2 * room::MOST_RECORD)
    );
}

#[test]
fn a_thread_of_64_kib_is_enough() {
    let thread = thread::Builder::new().stack_size(64 * 1024);
    let call = || {
        let deep = "- ".repeat(31) + "-" + " 1. a\n";
        let (mut lines, mut events) = (vec![0; 2], vec![0; 4096]);
        parse(deep.as_bytes(), &mut lines, &mut events)
    };
    let answer = thread.spawn(call).expect("a thread").join();
    assert_eq!(
        answer.expect("no panic"),
        refused(Refusal::NestedTooDeep, 64)
    );
}

#[test]
fn the_numbers_are_the_header_s() {
    let header = include_str!("../../../include/tolphaneap.h");
    for (name, value) in [
        ("LINE_WORDS", room::LINE_WORDS),
        ("EVENT_WORDS", room::EVENT_WORDS),
        ("LEAST_RECORD", room::LEAST_RECORD),
        ("MOST_RECORD", room::MOST_RECORD),
        ("MOST_ENTRY", room::MOST_ENTRY),
        ("MOST_TEXT", room::MOST_TEXT),
        ("SHORT", Mode::Short as usize),
        ("FULL", Mode::Full as usize),
    ] {
        let line = format!("#define TOLPHANEAP_{name} {value}");
        assert!(header.lines().any(|l| l == line), "no {line}");
    }
}
