//! Calls every function on sets with good and bad input, with marks around every buffer that is lent.

use std::thread;
use tolphaneap::{room, sets};
use tolphaneap::{Kind, Moved, Page, Refusal, Refused, Set};

// ---- lent memory

const WORD: u64 = 0xdead_beef;
const BYTE: u8 = 0xa5;
const MARGIN: usize = 16;

/// A call with a buffer that has marks in it and on both sides: its answer, and what is in the buffer.
fn marked<T: Copy + PartialEq, A>(
    len: usize,
    mark: T,
    call: impl FnOnce(&mut [T]) -> A,
) -> (A, Vec<T>) {
    let mut all = vec![mark; len + 2 * MARGIN];
    let answer = call(&mut all[MARGIN..MARGIN + len]);
    let inside = all.drain(MARGIN..MARGIN + len).collect();
    assert!(all.iter().all(|item| *item == mark), "written beside it");
    (answer, inside)
}

type Move = Result<Moved, Refused>;

/// What a call leaves: the answer, and every word and byte.
#[derive(Debug, PartialEq)]
struct Left {
    answer: Move,
    elements: Vec<u64>,
    pieces: Vec<u64>,
    out: Vec<u8>,
}

/// A call in so many words for elements and pieces, and bytes.
fn call_in(lent: [usize; 3], call: impl FnOnce(&mut [u64], &mut [u64], &mut [u8]) -> Move) -> Left {
    let (((answer, out), pieces), elements) = marked(lent[0], WORD, |elements| {
        marked(lent[1], WORD, |pieces| {
            marked(lent[2], BYTE, |out| call(elements, pieces, out))
        })
    });
    Left {
        answer,
        elements,
        pieces,
        out,
    }
}

/// As much as is always enough.
fn enough(set: &[u8]) -> [usize; 3] {
    let len = set.len();
    [room::elements(len), room::pieces(len), room::value(len)]
}

fn read_in(set: &[u8], lent: [usize; 3]) -> Left {
    call_in(lent, |elements, pieces, _| {
        sets::read(set, elements, pieces)
    })
}

fn pairs_in(set: &[u8], lent: [usize; 3], places: usize, spare: usize) -> Left {
    call_in(lent, |elements, pieces, _| {
        let ((answer, left), right) = marked(spare, WORD, |spare| {
            marked(places, WORD, |places| {
                sets::pairs(set, elements, pieces, places, spare)
            })
        });
        assert!(left.iter().chain(&right).all(|word| *word == 0));
        answer
    })
}

/// All five on the same set, the key of `value` and `join` and the place of `text` being given.
fn all_in(set: &[u8], key: &[u8], place: usize, lent: [usize; 3]) -> [Left; 5] {
    let places = room::places(set.len());
    [
        read_in(set, lent),
        call_in(lent, |elements, pieces, _| {
            sets::value(set, key, elements, pieces)
        }),
        pairs_in(set, lent, places, places),
        call_in(lent, |elements, pieces, out| {
            sets::join(set, key, elements, pieces, out)
        }),
        call_in(lent, |elements, pieces, out| {
            sets::text(set, place, elements, pieces, out)
        }),
    ]
}

fn refused<T>(refusal: Refusal, position: usize) -> Result<T, Refused> {
    Err(Refused { refusal, position })
}

fn made(taken: usize, made: usize) -> Move {
    Ok(Moved { taken, made })
}

/// The words, and zeros behind them.
fn filled(words: &[u64], len: usize) -> Vec<u64> {
    let mut all = words.to_vec();
    all.resize(len, 0);
    all
}

// ---- a set with all kinds, and two of `id` and of `class`

const MIXED: &[u8] = b"{#a k=\"b\nc\" .d %e% id=f class=g} ";

#[rustfmt::skip]
const MIXED_ELEMENTS: [u64; 30] = [
    2, 3, 3, 0, 1,
    3, 4, 5, 1, 3,
    1, 14, 14, 3, 4,
    4, 16, 16, 4, 5,
    3, 19, 21, 5, 6,
    3, 24, 29, 6, 7,
];
const MIXED_PIECES: [u64; 14] = [2, 3, 7, 8, 9, 10, 13, 14, 16, 17, 22, 23, 30, 31];

#[test]
fn a_set_leaves_its_words() {
    let lent = enough(MIXED);
    let pieces = filled(&MIXED_PIECES, lent[1]);
    let cut = |from: usize, to: usize| filled(&MIXED_ELEMENTS[5 * from..5 * to], lent[0]);
    let classes = [&MIXED_ELEMENTS[10..15], &MIXED_ELEMENTS[25..]].concat();
    let shown = [
        &[2, 3, 3, 5, 6][..],
        &MIXED_ELEMENTS[5..15],
        &[5, 24, 29, 6, 7],
    ]
    .concat();
    let [read, value, pairs, join, text] = all_in(MIXED, b"class", 1, lent);
    assert_eq!(read.answer, made(33, 6));
    assert_eq!(read.elements, cut(0, 6));
    assert_eq!(value.answer, made(33, 2));
    assert_eq!(value.elements, filled(&classes, lent[0]));
    assert_eq!(pairs.answer, made(33, 4));
    assert_eq!(pairs.elements, filled(&shown, lent[0]));
    assert_eq!(join.answer, made(33, 3));
    assert_eq!(join.elements, value.elements);
    assert_eq!(text.answer, made(33, 3));
    assert_eq!(text.elements, cut(1, 2));
    for left in [&read, &value, &pairs, &join, &text] {
        assert_eq!(left.pieces, pieces);
    }
    assert_eq!((&join.out[..3], join.out[3]), (&b"d g"[..], BYTE));
    assert_eq!((&text.out[..3], text.out[3]), (&b"b c"[..], BYTE));
}

// ---- every room, every refusal

/// A call refused with 13 or 14: zeros, and the bytes as found.
fn is_refused(left: &Left, refusal: Refusal, position: usize) {
    assert_eq!(left.answer, refused(refusal, position));
    assert!(left.elements.iter().chain(&left.pieces).all(|w| *w == 0));
    assert!(left.out.iter().all(|byte| *byte == BYTE));
}

#[test]
fn too_little_room_is_refused_where_it_is_missed() {
    let [_, pieces, out] = enough(MIXED);
    for words in 0..30 {
        let known = MIXED_ELEMENTS[words / 5 * 5 + 2] as usize;
        for left in all_in(MIXED, b"k", 0, [words, pieces, out]) {
            is_refused(&left, Refusal::ElementsFull, known);
        }
    }
    for words in 0..14 {
        let known = MIXED_PIECES[words / 2 * 2 + 1] as usize;
        for left in all_in(MIXED, b"k", 0, [30, words, out]) {
            is_refused(&left, Refusal::ElementsFull, known);
        }
    }
    for places in 0..6 {
        let known = MIXED_ELEMENTS[places * 5 + 2] as usize;
        for [places, spare] in [[places, 9], [9, places]] {
            let left = pairs_in(MIXED, enough(MIXED), places, spare);
            is_refused(&left, Refusal::ElementsFull, known);
        }
    }
    for (room, at) in [(0, 7), (1, 9), (2, 9)] {
        let [_, value, _, join, _] = all_in(MIXED, b"k", 0, [30, 14, room]);
        assert_eq!(join.answer, refused(Refusal::BytesFull, at));
        assert_eq!(join.elements, value.elements);
        assert!(join.out.iter().all(|byte| *byte == BYTE));
    }
}

#[test]
fn what_is_no_set_is_refused_where_it_fails() {
    let cases: [(&[u8], usize); 14] = [
        (b"", 0),
        (b" \n", 0),
        (b"a", 0),
        (b" {.a}", 0),
        (b"{.a", 3),
        (b"{.a \n", 3),
        (b"{.a} x", 4),
        (b"{.a} {.b}", 4),
        (b"{.a}{", 5),
        (b"{.a#b}", 3),
        (b"{k=}", 3),
        (b"{k=\"v\nw\\\" x\"}", 11),
        (b"{%a", 3),
        (b"{\xff}", 1),
    ];
    for (set, position) in cases {
        for left in all_in(set, b"k", 0, enough(set)) {
            is_refused(&left, Refusal::NotASet, position);
        }
        assert_eq!(
            Set::read(set).map(|_| ()),
            refused(Refusal::NotASet, position)
        );
    }
}

#[test]
fn nothing_lent_is_answered_too() {
    let full = refused(Refusal::ElementsFull, 3);
    assert_eq!(
        sets::read(&[], &mut [], &mut []),
        refused(Refusal::NotASet, 0)
    );
    assert_eq!(sets::read(b"{}", &mut [], &mut []), made(2, 0));
    assert_eq!(sets::value(b"{.a}", b"", &mut [], &mut []), full);
    assert_eq!(
        sets::pairs(b"{.a}", &mut [0; 5], &mut [0; 2], &mut [], &mut []),
        full
    );
    assert_eq!(
        sets::text(b"{.a}", 0, &mut [0; 5], &mut [0; 2], &mut []),
        refused(Refusal::BytesFull, 2)
    );
    for place in [1, usize::MAX / 5 + 1, usize::MAX] {
        assert_eq!(
            sets::text(b"{.a}", place, &mut [0; 5], &mut [0; 2], &mut []),
            made(4, 0)
        );
    }
}

// ---- types

/// The elements of a set: kind or key, span, value.
fn shown(set: &Set) -> Vec<String> {
    let show = |element: tolphaneap::Element| {
        let kind = match &element.kind {
            Kind::Class => "class".to_string(),
            Kind::Id => "id".to_string(),
            Kind::Pair { key, place } => format!("{}@{place:?}", String::from_utf8_lossy(key)),
            Kind::Comment => "comment".to_string(),
        };
        format!("{kind} {:?} {}", element.span(), element.value)
    };
    set.elements().map(show).collect()
}

fn pairs_of(set: &Set) -> Vec<String> {
    let show =
        |pair: tolphaneap::Pair| format!("{}={}", String::from_utf8_lossy(pair.key), pair.value);
    set.pairs().into_iter().map(show).collect()
}

fn value_of(set: &str, key: &str) -> Option<String> {
    let set = Set::read(set.as_bytes()).expect("a set");
    set.get(key).map(|value| value.to_string())
}

#[test]
fn every_element_has_its_type() {
    let set = Set::read(MIXED).expect("a set");
    assert_eq!(set.span(), 0..33);
    assert_eq!(
        shown(&set),
        [
            "id 2..3 a",
            "k@4..5 4..10 b c",
            "class 13..14 d",
            "comment 16..17 e",
            "id@19..21 19..23 f",
            "class@24..29 24..31 g",
        ]
    );
    let keys: Vec<_> = set.elements().map(|element| element.key()).collect();
    let expected = ["id", "k", "class", "", "id", "class"];
    assert!(keys
        .iter()
        .zip(expected)
        .all(|(key, name)| key.unwrap_or_default() == name.as_bytes()));
    assert_eq!(pairs_of(&set), ["id=f", "k=b c", "class=d g"]);
    let value = set.get("k").expect("a value");
    assert_eq!(value.pieces(), [7..8, 9..10]);
    assert_eq!(*value.bytes(), *b"b c");

    let empty = Set::read(b"{% % %%k=\"\"}").expect("a set");
    assert_eq!(
        shown(&empty),
        ["comment 2..3  ", "comment 6..6 ", "k@7..8 7..8 "]
    );
}

#[test]
fn a_key_has_its_value() {
    let some = |value: &str| Some(value.to_string());
    assert_eq!(value_of("{.a .b class=\"c d\"}", "class"), some("a b c d"));
    assert_eq!(value_of("{k=a k=b}", "k"), some("b"));
    assert_eq!(value_of("{k=a k=\"\"}", "k"), some(""));
    assert_eq!(value_of("{#a id=b}", "id"), some("b"));
    assert_eq!(value_of("{#a %k%}", "k"), None);
    assert_eq!(value_of("{}{}", ""), None);
    // no value by key, and an empty one among the pairs
    assert_eq!(value_of("{class=\"\"}", "class"), None);
    let set = Set::read(b"{class=\"\"}").expect("a set");
    assert_eq!(pairs_of(&set), ["class="]);
    let set = Set::read(b"{class=\"\" k=v .a}").expect("a set");
    assert_eq!(pairs_of(&set), ["class=a", "k=v"]);
    // what stands before an escaped newline is lost, and escapes stay
    assert_eq!(value_of("{a=\"b\\\nc\"}", "a"), some("c"));
    assert_eq!(value_of("{a=\"\\\"\"}", "a"), some("\\\""));
}

#[test]
fn a_page_has_its_sets() {
    let text = "a\n\n> {.b #c}\n>   {k=\"v w\"} \n> d\n\n{.x}{.y}\n";
    let page = Page::parse(text).expect("a page");
    let found = page.attributes(text.as_bytes()).map(|set| {
        let set = set.expect("a set");
        (set.span(), shown(&set))
    });
    let line = |span, elements: &[&str]| (span, elements.iter().map(|e| e.to_string()).collect());
    // a line's end belongs to the place of its set; two sets without a gap are no attribute line
    assert_eq!(
        found.collect::<Vec<_>>(),
        [
            line(5..13, &["class 7..8 b", "id 10..11 c"]),
            line(17..28, &["k@18..19 18..24 v w"]),
        ]
    );
    let elsewhere: Vec<_> = page
        .attributes(b"{.a}{.b} x")
        .map(|set| set.map(|_| ()))
        .collect();
    assert_eq!(
        elsewhere,
        [refused(Refusal::NotASet, 5), refused(Refusal::NotASet, 17)]
    );
    let stream = page.stream().expect("a stream");
    let read = Page::read(&stream).expect("a page");
    assert!(read
        .attributes(text.as_bytes())
        .eq(page.attributes(text.as_bytes())));
}

// ---- anything at all

/// Numbers that look random, the same in every run.
struct Numbers(u64);

impl Numbers {
    fn below(&mut self, end: usize) -> usize {
        self.0 ^= self.0 << 13;
        self.0 ^= self.0 >> 7;
        self.0 ^= self.0 << 17;
        (self.0 % end as u64) as usize
    }

    /// Bytes that are often a set.
    fn set(&mut self) -> Vec<u8> {
        let parts: [&[u8]; 16] = [
            b".a ",
            b"#b ",
            b"k=c ",
            b"class=d ",
            b"id=e ",
            b"k=\"",
            b"class=\"",
            b"\"",
            b"%",
            b"\n",
            b"\\",
            b" ",
            b"}{",
            b"f",
            b"\xff",
            b"\"\" ",
        ];
        let mut set = b"{".to_vec();
        for _ in 0..self.below(12) {
            set.extend(parts[self.below(parts.len())]);
        }
        set.extend(b"}");
        set
    }
}

/// The value that an answer of `join` or `text` wrote, if there is one.
fn written(left: &Left) -> Option<&[u8]> {
    let len = left.answer.expect("enough room").made;
    (left.elements[0] != 0).then(|| &left.out[..len])
}

#[test]
fn types_and_words_agree_on_any_set() {
    let mut numbers = Numbers(1);
    let mut sets = 0;
    for _ in 0..40_000 {
        let bytes = numbers.set();
        let lent = enough(&bytes);
        let Ok(set) = Set::read(&bytes) else {
            let [read, ..] = all_in(&bytes, b"k", 0, lent);
            assert!(matches!(
                read.answer,
                Err(Refused {
                    refusal: Refusal::NotASet,
                    ..
                })
            ));
            continue;
        };
        sets += 1;
        for (place, element) in set.elements().enumerate() {
            let [_, _, _, _, text] = all_in(&bytes, b"", place, lent);
            assert_eq!(written(&text), Some(&*element.value.bytes()), "{bytes:?}");
            assert!(bytes.get(element.span()).is_some(), "{bytes:?}");
        }
        let pairs = set.pairs();
        for key in ["class", "id", "k", "f", "kf", ""] {
            let [_, _, _, join, _] = all_in(&bytes, key.as_bytes(), 0, lent);
            let value = set.get(key).map(|value| value.bytes().into_owned());
            assert_eq!(written(&join), value.as_deref(), "{key} {bytes:?}");
            let shown = pairs.iter().find(|pair| pair.key == key.as_bytes());
            let shown = shown.map(|pair| pair.value.bytes().into_owned());
            // only a class without a piece shows and has no value
            assert_eq!(shown.filter(|v| key != "class" || !v.is_empty()), value);
        }
    }
    assert!(sets > 4000, "{sets} sets");
}

/// Pages of attribute lines: each is a set that opens.
#[test]
fn every_attribute_line_opens() {
    let mut numbers = Numbers(3);
    let mut opened = 0;
    for _ in 0..4000 {
        let lines: Vec<_> = (0..4).map(|_| numbers.set()).collect();
        let text = lines.join(&b'\n');
        let page = Page::parse(&text).expect("a page");
        for set in page.attributes(&text) {
            let set = set.expect("an attribute line is a set");
            assert!(set.elements().all(|e| text.get(e.span()).is_some()));
            opened += 1;
        }
    }
    assert!(opened > 400, "{opened} lines");
}

// ---- what the header promises

#[test]
fn the_room_is_enough() {
    let sets = [
        "{%}".to_owned(),
        "{".to_owned() + &"%%".repeat(500) + "%}",
        "{%".to_owned() + &"a\n".repeat(500) + "}",
        "{".to_owned() + &".a ".repeat(500) + "}",
        "{".to_owned() + &"class=\"a\nb\"".repeat(500) + "}",
        "{}".repeat(500),
        "{.a}".repeat(500),
    ];
    for set in sets {
        let set = set.as_bytes();
        for left in all_in(set, b"class", 0, enough(set)) {
            assert!(left.answer.is_ok());
        }
        assert!(Set::read(set).is_ok());
    }
}

#[test]
fn a_thread_of_64_kib_is_enough() {
    let keys: String = (0..100_000).map(|n| format!("k{n}=v ")).collect();
    let set = format!("{{{keys}}}");
    let words = [5, 2, 1, 1].map(|words| vec![0; words * 100_000]);
    let thread = thread::Builder::new().stack_size(64 * 1024);
    let call = move || {
        let [mut elements, mut pieces, mut places, mut spare] = words;
        sets::pairs(
            set.as_bytes(),
            &mut elements,
            &mut pieces,
            &mut places,
            &mut spare,
        )
    };
    let answer = thread.spawn(call).expect("a thread").join();
    assert_eq!(answer.expect("no panic").map(|done| done.made), Ok(100_000));
}

#[test]
fn the_numbers_are_the_header_s() {
    let header = include_str!("../../../include/tolphaneap_sets.h");
    for (name, value) in [
        ("ELEMENT_WORDS", room::ELEMENT_WORDS as u64),
        ("PIECE_WORDS", room::PIECE_WORDS as u64),
        ("CLASS", sets::CLASS),
        ("ID", sets::ID),
        ("PAIR", sets::PAIR),
        ("COMMENT", sets::COMMENT),
        ("FURTHER", sets::FURTHER),
    ] {
        let line = format!("#define TOLPHANEAP_SET_{name} {value}");
        assert!(header.lines().any(|l| l == line), "no {line}");
    }
}
