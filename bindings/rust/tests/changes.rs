//! Compares editions, good and bad, with marks around every buffer that is lent, and holds the parts to a plain reading of the rule.

use std::ops::Range;
use std::thread;
use tolphaneap::{changed, changed_pages, changes, room};
use tolphaneap::{Changed, Event, Node, Page, Part, Refusal, Refused, RefusedEdition, Which};

// ---- lent memory

const WORD: u32 = 0xdead_beef;
const BYTE: u8 = 0xa5;
const MARGIN: usize = 16;

/// A call with a copy of some items that has marks on both sides: its answer, and what is left in the copy.
fn marked<T: Copy + PartialEq, A>(
    items: &[T],
    mark: T,
    call: impl FnOnce(&mut [T]) -> A,
) -> (A, Vec<T>) {
    let marks = [mark; MARGIN];
    let mut all = [&marks, items, &marks].concat();
    let answer = call(&mut all[MARGIN..MARGIN + items.len()]);
    let inside = all.drain(MARGIN..MARGIN + items.len()).collect();
    assert!(all.iter().all(|item| *item == mark), "written beside it");
    (answer, inside)
}

/// The same with items that are only read.
fn kept<T: Copy + PartialEq, A>(items: &[T], mark: T, call: impl FnOnce(&[T]) -> A) -> A {
    let (answer, left) = marked(items, mark, |items| call(items));
    assert!(left == items, "what is only read was written");
    answer
}

type Answer = Result<Part, RefusedEdition>;
type Edition<'t> = (&'t [u8], &'t [u32]);

/// A comparison in so many line and event words, all of which are zero afterwards.
fn changes_in(older: Edition, newer: Edition, line_words: usize, event_words: usize) -> Answer {
    let ((answer, events), lines) = marked(&vec![WORD; line_words], WORD, |lines| {
        marked(&vec![WORD; event_words], WORD, |events| {
            kept(older.0, BYTE, |text| {
                kept(older.1, WORD, |given| {
                    kept(newer.0, BYTE, |next| {
                        kept(newer.1, WORD, |next_given| {
                            changes((text, given), (next, next_given), lines, events)
                        })
                    })
                })
            })
        })
    });
    assert!(lines.iter().chain(&events).all(|word| *word == 0));
    answer
}

/// The same with as many words as are always enough.
fn changes_of(older: Edition, newer: Edition) -> Answer {
    let most = older.0.len().max(newer.0.len());
    changes_in(older, newer, room::lines(most), room::events(most))
}

fn words(text: impl AsRef<[u8]>) -> Vec<u32> {
    Page::parse(text).expect("a page").words().to_vec()
}

fn part(which: Which, span: Range<usize>) -> Answer {
    Ok(Part { which, span })
}

fn refused<T>(which: Which, refusal: Refusal, position: usize) -> Result<T, RefusedEdition> {
    let refused = Refused { refusal, position };
    Err(RefusedEdition { which, refused })
}

// ---- parts

/// The part between two texts, over lent words and owned ones alike.
fn between(older: &str, newer: &str) -> String {
    let lent = changes_of(
        (older.as_bytes(), &words(older)),
        (newer.as_bytes(), &words(newer)),
    );
    let owned = changed(older, newer).expect("two pages");
    let (which, text, blocks) = match &owned {
        Changed::Same => {
            assert_eq!(lent, part(Which::Newer, newer.len()..newer.len()));
            return "same".to_owned();
        }
        Changed::New(blocks) => (Which::Newer, newer, blocks),
        Changed::Removed(blocks) => (Which::Older, older, blocks),
    };
    assert_eq!(lent, part(which, blocks.span.clone()));
    assert_eq!(&text.as_bytes()[blocks.span.clone()], blocks.bytes);
    assert!(!blocks.bytes.is_empty());
    let name = match which {
        Which::Older => "removed",
        Which::Newer => "new",
    };
    let lines: Vec<_> = text.split_inclusive('\n').collect();
    let shown = lines[blocks.lines.start() - 1..*blocks.lines.end()].concat();
    assert_eq!(shown.as_bytes(), blocks.bytes, "whole lines");
    format!(
        "{name} {}-{} {shown:?}",
        blocks.lines.start(),
        blocks.lines.end()
    )
}

#[test]
fn the_part_is_of_the_newer_text_or_was_removed() {
    for (older, newer, expected) in [
        // equal ones, empty ones too
        ("", "", "same"),
        ("a\n", "a\n", "same"),
        ("# a\n\n- b\n", "# a\n\n- b\n", "same"),
        ("", "a\n", r#"new 1-1 "a\n""#),
        ("a\n", "", r#"removed 1-1 "a\n""#),
        // in front, in the middle, at the end
        ("b\n", "a\n\nb\n", r#"new 1-2 "a\n\n""#),
        ("a\n\nc\n", "a\n\nb\n\nc\n", r#"new 3-4 "b\n\n""#),
        ("a\n", "a\n\nb", r#"new 2-3 "\nb""#),
        ("a\n\nb\n\nc\n", "a\n\nc\n", r#"removed 3-4 "b\n\n""#),
        // in the place of another, all of it, and without a last newline
        ("a\n\nb\n\nc\n", "a\n\nx\ny\n\nc\n", r#"new 3-4 "x\ny\n""#),
        ("a\n\nb\n", "c\n", r#"new 1-1 "c\n""#),
        ("a\n", "a", r#"new 1-1 "a""#),
        // the front run comes first
        ("a\n\na\n", "a\n", r#"removed 2-3 "\na\n""#),
        ("a\n", "a\n\na\n", r#"new 2-3 "\na\n""#),
        // a heading is a block without its section
        ("# a\n\nb\n", "# c\n\nb\n", r##"new 1-1 "# c\n""##),
        ("# a\n\nb\n", "# a\n\nc\n", r#"new 3-3 "c\n""#),
        ("# a\n## b\nc\n", "# a\n", r###"removed 2-3 "## b\nc\n""###),
        // a list is one, and so is a quote, and what stands in them
        ("- a\n- b\n", "- a\n- c\n", r#"new 1-2 "- a\n- c\n""#),
        (
            "> a\n>\n> b\n",
            "> a\n>\n> c\n",
            r#"new 1-3 "> a\n>\n> c\n""#,
        ),
        // bytes decide: blanks count, and an attribute line is a block of its own
        ("a\n", " a\n", r#"new 1-1 " a\n""#),
        ("{.x}\na\n", "{.y}\na\n", r#"new 1-1 "{.y}\n""#),
        ("{.x}\na\n", "a\n", r#"removed 1-1 "{.x}\n""#),
    ] {
        assert_eq!(between(older, newer), expected, "{older:?} {newer:?}");
    }
}

#[test]
fn texts_of_any_kind_are_taken() {
    let (older, newer) = (b"\xff\n".to_vec(), "\u{fffd}\n".to_owned());
    let Changed::New(blocks) = changed(&older, &newer).expect("two pages") else {
        panic!("all of it is new");
    };
    assert_eq!(blocks.bytes, newer.as_bytes());
    assert_eq!(changed(&older[..], &older), Ok(Changed::Same));
}

// ---- the rule, plainly

/// Where the lines start of the Enters and Atoms that stand in a Document and its Sections alone, and the text's end.
fn cuts(text: &[u8]) -> Vec<usize> {
    let (mut cuts, mut depth) = (Vec::new(), 0);
    for event in Page::parse(text).expect("a page").events() {
        match &event {
            Event::Enter(Node::Document | Node::Section { .. }, _) => continue,
            Event::Exit(Node::Document | Node::Section { .. }, _) => continue,
            Event::Enter(..) | Event::Atom(..) if depth == 0 => {
                let before = &text[..event.span().start];
                cuts.push(
                    before
                        .iter()
                        .rposition(|b| *b == b'\n')
                        .map_or(0, |p| p + 1),
                );
            }
            _ => {}
        }
        match event {
            Event::Enter(..) => depth += 1,
            Event::Exit(..) => depth -= 1,
            _ => {}
        }
    }
    cuts.push(text.len());
    cuts
}

fn plainly(older: &[u8], newer: &[u8]) -> Part {
    let (old_cuts, new_cuts) = (cuts(older), cuts(newer));
    let blocks = |text: &[u8], cuts: &[usize]| -> Vec<Vec<u8>> {
        cuts.windows(2).map(|c| text[c[0]..c[1]].to_vec()).collect()
    };
    let (old, new) = (blocks(older, &old_cuts), blocks(newer, &new_cuts));
    assert_eq!(old.concat(), older, "blocks cover the text");
    let front = old.iter().zip(&new).take_while(|(o, n)| o == n).count();
    let pairs = old[front..].iter().rev().zip(new[front..].iter().rev());
    let back = pairs.take_while(|(o, n)| o == n).count();
    let removed = front + back == new.len() && front + back != old.len();
    let (which, cuts) = match removed {
        true => (Which::Older, old_cuts),
        false => (Which::Newer, new_cuts),
    };
    let span = cuts[front]..cuts[cuts.len() - 1 - back];
    Part { which, span }
}

/// Numbers that look random, the same in every run.
struct Numbers(u64);

impl Numbers {
    fn below(&mut self, end: usize) -> usize {
        self.0 ^= self.0 << 13;
        self.0 ^= self.0 >> 7;
        self.0 ^= self.0 << 17;
        (self.0 % end as u64) as usize
    }

    /// Lines that make all kinds of blocks.
    fn lines(&mut self, most: usize) -> Vec<&'static str> {
        let lines = [
            "\n",
            "\n",
            "\n",
            "a\n",
            "b\n",
            "# c\n",
            "## d\n",
            "- e\n",
            "- f\n",
            "  g\n",
            "> h\n",
            "1. i\n",
            ": j\n",
            "|k|\n",
            "|-|\n",
            "^ l\n",
            "{.m}\n",
            "```\n",
            ":::\n",
            "***\n",
            "[^n]: o\n",
            "[p]: q\n",
            "\u{e9}",
            " ",
        ];
        let count = self.below(most);
        (0..count).map(|_| lines[self.below(lines.len())]).collect()
    }
}

#[test]
fn any_two_editions_have_the_plain_part() {
    let mut numbers = Numbers(5);
    let (mut new, mut removed, mut same) = (0, 0, 0);
    for _ in 0..20_000 {
        let mut lines = numbers.lines(24);
        let older = lines.concat();
        for _ in 0..numbers.below(3) {
            let from = numbers.below(lines.len() + 1);
            let to = from + numbers.below(lines.len() + 1 - from).min(3);
            let others = numbers.lines(3);
            lines.splice(from..to, others);
        }
        let newer = lines.concat();
        let expected = plainly(older.as_bytes(), newer.as_bytes());
        let edition = |text: &str| (text.to_owned(), words(text));
        let (o, n) = (edition(&older), edition(&newer));
        let got = changes_of((o.0.as_bytes(), &o.1), (n.0.as_bytes(), &n.1));
        assert_eq!(got, Ok(expected.clone()), "{older:?} {newer:?}");
        let (text, other) = match expected.which {
            Which::Older => (&older, &newer),
            Which::Newer => (&newer, &older),
        };
        assert!(other.starts_with(&text[..expected.span.start]));
        assert!(other.ends_with(&text[expected.span.end..]));
        assert_eq!(expected.span.is_empty(), older == newer);
        match changed(&older, &newer).expect("two pages") {
            Changed::Same => {
                same += 1;
                assert_eq!(older, newer);
            }
            Changed::New(blocks) => {
                new += 1;
                assert_eq!((Which::Newer, blocks.span), (expected.which, expected.span));
            }
            Changed::Removed(blocks) => {
                removed += 1;
                assert_eq!((Which::Older, blocks.span), (expected.which, expected.span));
            }
        }
    }
    assert!(
        new > 2000 && removed > 400 && same > 2000,
        "{new} {removed} {same}"
    );
}

// ---- every refusal

/// A bad edition is refused at either place, the older first.
fn is_refused(bad: Edition, lent: [usize; 2], refusal: Refusal, position: usize) {
    let good: Edition = (b"", &words(""));
    let [lines, events] = lent;
    assert_eq!(
        changes_in(bad, good, lines, events),
        refused(Which::Older, refusal, position)
    );
    assert_eq!(
        changes_in(good, bad, lines, events),
        refused(Which::Newer, refusal, position)
    );
    assert_eq!(
        changes_in(bad, bad, lines, events),
        refused(Which::Older, refusal, position)
    );
}

fn headings(levels: usize) -> String {
    (1..=levels)
        .map(|level| "#".repeat(level) + " a\n")
        .collect()
}

#[test]
fn what_a_parse_refuses_is_refused() {
    let is_refused = |text: &[u8], lent, refusal, position| {
        is_refused((text, &[]), lent, refusal, position);
        // whatever the events are
        is_refused((text, &[WORD; 11]), lent, refusal, position);
    };
    is_refused(&vec![b'a'; 16_777_216], [2, 40], Refusal::TextTooLong, 0);
    is_refused(&[b'\n'; 8193], [16_384, 16_384], Refusal::LinesFull, 0);
    is_refused(b"> - b\n", [2, 8 * 5], Refusal::EventsFull, 4);
    let deep = "> ".repeat(33);
    is_refused(deep.as_bytes(), [3, 4097], Refusal::NestedTooDeep, 64);
    let many = headings(33);
    is_refused(many.as_bytes(), [66, 4096], Refusal::TooManySections, 624);
    let long = format!("- a\n\n{}", "#".repeat(65_536));
    is_refused(long.as_bytes(), [6, 4096], Refusal::HeadingTooLong, 5);

    for (older, newer, which) in [
        (&deep, &many, Which::Older),
        (&many, &String::new(), Which::Older),
        (&String::new(), &deep, Which::Newer),
    ] {
        let answer = changed(older, newer);
        assert_eq!(answer.map_err(|refused| refused.which), Err(which));
    }
    assert_eq!(
        changed("", &deep).expect_err("it is too deep").to_string(),
        "the newer text: refused 3 at 64: a container with 32 around it"
    );
}

#[test]
fn any_room_is_enough_or_refused() {
    let (older, newer) = ("a\n\nb\n", "a\n\nb\n\nc\n");
    let (given, next) = (words(older), words(newer));
    for lines in 0..12 {
        for events in 0..100 {
            let answer = changes_in(
                (older.as_bytes(), &given),
                (newer.as_bytes(), &next),
                lines,
                events,
            );
            let events_full = |e: &RefusedEdition| e.refused.refusal == Refusal::EventsFull;
            if lines < 6 {
                assert_eq!(answer, refused(Which::Older, Refusal::LinesFull, 0));
            } else if events < given.len() {
                assert!(matches!(answer, Err(e) if e.which == Which::Older && events_full(&e)));
            } else if lines < 10 {
                assert_eq!(answer, refused(Which::Newer, Refusal::LinesFull, 0));
            } else if events < next.len() {
                assert!(matches!(answer, Err(e) if e.which == Which::Newer && events_full(&e)));
            } else {
                assert_eq!(answer, part(Which::Newer, 5..8));
            }
        }
    }
}

/// A text whose parse leaves Stale events.
const STALE: &str = ": a\n\n  b\n\n# c\n";

#[test]
fn events_of_another_text_are_refused_where_they_differ() {
    let text = STALE.as_bytes();
    let good = words(text);
    let count = good.len() / 8;
    let lent = [room::lines(text.len()), room::events(text.len())];
    let stray = |given: &[u32], index| is_refused((text, given), lent, Refusal::Stray, index);
    // each word of each event; a Stale one is no longer Stale then
    for place in 0..good.len() {
        let mut given = good.clone();
        given[place] ^= 1 << (place % 32);
        stray(&given, place / 8);
    }
    // an event put in, also behind the last
    for index in 0..=count {
        let mut given = good.clone();
        given.splice(8 * index..8 * index, [4, 1, 0, 0, 0, 0, 0, 0]);
        stray(&given, index);
        // role 0 with anything else is no Stale event
        given[8 * index] = 0;
        stray(&given, index);
    }
    // an event left out: the next one given is not the parse's, or there is none
    let live = |given: &[u32]| given.chunks(8).position(|event| event != [0; 8]);
    for index in (0..count).filter(|index| live(&good[8 * index..]) == Some(0)) {
        let mut given = good.clone();
        given.drain(8 * index..8 * index + 8);
        let next = live(&given[8 * index..]).map_or(count - 1, |n| index + n);
        stray(&given, next);
    }
    // cut off anywhere: words beyond a multiple of eight count for nothing
    for len in 0..good.len() {
        stray(&good[..len], len / 8);
    }
    stray(&[], 0);
    stray(&[0; 23], 2);
}

#[test]
fn stale_events_and_words_behind_count_for_nothing() {
    let text = STALE.as_bytes();
    let good = words(text);
    let same = part(Which::Newer, text.len()..text.len());
    assert!(good.chunks(8).any(|event| event == [0; 8]), "it has some");
    let live: Vec<_> = good.chunks(8).filter(|event| *event != [0; 8]).collect();
    let live = live.concat();
    assert_eq!(changes_of((text, &good), (text, &live)), same);
    assert_eq!(changes_of((text, &live), (text, &good)), same);
    for index in 0..=good.len() / 8 {
        let mut given = good.clone();
        given.splice(8 * index..8 * index, [0; 24]);
        given.extend([WORD; 7]);
        assert_eq!(changes_of((text, &given), (text, &live)), same);
    }
}

#[test]
fn pages_are_held_to_their_texts() {
    let (older, newer) = (STALE, "# c\n");
    let (page, next) = (Page::parse(older), Page::parse(newer));
    let (page, next) = (page.expect("a page"), next.expect("a page"));
    let removed = changed(older, newer);
    assert!(matches!(removed, Ok(Changed::Removed(_))));
    assert_eq!(changed_pages((older, &page), (newer, &next)), removed);
    let stream = page.stream().expect("a stream");
    let read = Page::read(&stream).expect("a page");
    assert_ne!(page, read, "a stream has no Stale events");
    assert_eq!(changed_pages((older, &read), (newer, &next)), removed);
    assert_eq!(
        changed_pages((older, &page), (newer, &page)),
        refused(Which::Newer, Refusal::Stray, 1)
    );
    assert_eq!(
        changed_pages((older, &next), (newer, &page)),
        refused(Which::Older, Refusal::Stray, 1)
    );
    // rows that are dropped need room for their time
    let table = "|a|\n".to_owned() + &"|-|\n".repeat(500);
    let page = Page::parse(&table).expect("a page");
    let same = changed_pages((&table, &page), (&table, &page));
    assert_eq!(same, Ok(Changed::Same));
}

#[test]
fn nothing_lent_is_answered_too() {
    assert_eq!(
        changes((b"", &[]), (b"", &[]), &mut [], &mut []),
        refused(Which::Older, Refusal::EventsFull, 0)
    );
    assert_eq!(
        changes((b"", &[]), (b"", &[]), &mut [], &mut [0; 16]),
        refused(Which::Older, Refusal::Stray, 0)
    );
    let empty = words("");
    assert_eq!(
        changes((b"", &empty), (b"", &empty), &mut [], &mut [0; 16]),
        part(Which::Newer, 0..0)
    );
    assert_eq!(
        changes((b"", &empty), (b"a", &[]), &mut [], &mut [0; 16]),
        refused(Which::Newer, Refusal::LinesFull, 0)
    );
}

// ---- what the header promises

#[test]
fn a_thread_of_64_kib_is_enough() {
    let deep = "- ".repeat(31) + "1. a\n";
    let given = words(&deep);
    let mut lent = (vec![0; 2], vec![0; 4096]);
    let thread = thread::Builder::new().stack_size(64 * 1024);
    let call = move || {
        let edition = (deep.as_bytes(), &given[..]);
        changes(edition, edition, &mut lent.0, &mut lent.1)
    };
    let answer = thread.spawn(call).expect("a thread").join();
    assert_eq!(answer.expect("no panic"), part(Which::Newer, 67..67));
}

#[test]
fn the_numbers_are_the_header_s() {
    let header = include_str!("../../../include/tolphaneap.h");
    for (name, which) in [("OLDER", Which::Older), ("NEWER", Which::Newer)] {
        let line = format!("#define TOLPHANEAP_{name} {}", which.number());
        assert!(header.lines().any(|l| l == line), "no {line}");
    }
}
