//! Sets of attributes: opened and sorted by ours and by the Rust, checked against each other and timed in turn.

use crate::attr::Attributes;
use crate::timing::Best;
use std::hint::black_box;

/// The calls of the Rust binding: the bench has no declarations of its own.
#[path = "../../../bindings/rust/src/raw_sets.rs"]
#[allow(dead_code)]
mod raw;

// As in the header: words of an element and of a piece, the kinds of a class and of one after the first.
const ELEMENT_WORDS: usize = 5;
const PIECE_WORDS: usize = 2;
const CLASS: u64 = 1;
const FURTHER: u64 = 5;

pub const SIZES: [usize; 2] = [64_000, 4_000_000];

/// The Rust compares each key with all before it. More elements than these and it is left out: it would take minutes.
const MOST_RUST: usize = 12_000;

pub struct Pairs {
    pub name: &'static str,
    /// The n-th pair of some.
    pair: fn(usize, usize) -> String,
}

fn distinct(n: usize, _: usize) -> String {
    format!("k{n}=v ")
}

fn prefixed(n: usize, _: usize) -> String {
    format!(
        "{}{n}=v ",
        "a-long-prefix-that-all-of-the-keys-have-in-common-"
    )
}

fn equal(_: usize, _: usize) -> String {
    "key=v ".to_string()
}

/// All of one width, so that their order is that of the numbers.
fn sorted(n: usize, _: usize) -> String {
    format!("k{n:07}=v ")
}

fn reversed(n: usize, of: usize) -> String {
    format!("k{:07}=v ", of - n)
}

/// In an order without a pattern: a prime above all numbers permutes them.
fn shuffled(n: usize, _: usize) -> String {
    const PRIME: usize = 1_000_003;
    format!("k{:07}=v ", n * 500_009 % PRIME)
}

fn classes(n: usize, _: usize) -> String {
    format!(".c{n} ")
}

pub const SETS: [Pairs; 7] = [
    Pairs {
        name: "distinct keys",
        pair: distinct,
    },
    Pairs {
        name: "a long common prefix",
        pair: prefixed,
    },
    Pairs {
        name: "one key",
        pair: equal,
    },
    Pairs {
        name: "sorted keys",
        pair: sorted,
    },
    Pairs {
        name: "reversed keys",
        pair: reversed,
    },
    Pairs {
        name: "shuffled keys",
        pair: shuffled,
    },
    Pairs {
        name: "classes",
        pair: classes,
    },
];

/// A set of as many pairs as fit.
fn made(pairs: &Pairs, len: usize) -> String {
    let of = len / (pairs.pair)(0, 0).len();
    let mut set = "{".to_string();
    for n in 0..of {
        let pair = (pairs.pair)(n, of);
        if set.len() + pair.len() + 1 > len {
            break;
        }
        set += &pair;
    }
    set + "}"
}

/// A set and the words that ours is lent, as many as it needs.
struct Case {
    set: String,
    elements: Vec<u64>,
    pieces: Vec<u64>,
    places: Vec<u64>,
    spare: Vec<u64>,
    best: [Best; 4],
}

impl Case {
    fn new(pairs: &Pairs, len: usize) -> Self {
        let set = made(pairs, len);
        // a pair or class and the space behind it take four bytes at least
        let most = set.len() / 4;
        let mut elements = vec![0; ELEMENT_WORDS * most];
        let mut pieces = vec![0; PIECE_WORDS * most];
        let [refusal, position, count] = raw::read(set.as_bytes(), &mut elements, &mut pieces);
        let name = pairs.name;
        assert_eq!(refusal, 0, "{name}: refused {refusal} at {position}");
        let count = count as usize;
        elements.truncate(ELEMENT_WORDS * count);
        pieces.truncate(PIECE_WORDS * count);
        let mut case = Case {
            set,
            elements,
            pieces,
            places: vec![0; count],
            spare: vec![0; count],
            best: [Best::NONE; 4],
        };
        if case.has_rust() {
            assert!(case.shown() == case.rust_shown(), "{name}: the pairs");
        }
        case
    }

    fn count(&self) -> usize {
        self.places.len()
    }

    fn has_rust(&self) -> bool {
        self.count() <= MOST_RUST
    }

    fn read(&mut self) -> [u64; 3] {
        raw::read(self.set.as_bytes(), &mut self.elements, &mut self.pieces)
    }

    fn pairs(&mut self) -> [u64; 3] {
        raw::pairs(
            self.set.as_bytes(),
            &mut self.elements,
            &mut self.pieces,
            &mut self.places,
            &mut self.spare,
        )
    }

    /// The keys and values that ours gives. Where there are classes, the sets here have nothing else.
    fn shown(&mut self) -> Vec<(String, String)> {
        let left = ELEMENT_WORDS * self.pairs()[2] as usize;
        let part = |start: u64, end: u64| self.set[start as usize..end as usize].to_string();
        let mut pairs: Vec<(String, String)> = Vec::new();
        for words in self.elements[..left].chunks_exact(ELEMENT_WORDS) {
            let own = PIECE_WORDS * words[3] as usize..PIECE_WORDS * words[4] as usize;
            let spans = self.pieces[own].chunks_exact(PIECE_WORDS);
            let value: Vec<_> = spans.map(|span| part(span[0], span[1])).collect();
            let value = value.join(" ");
            match words[0] {
                CLASS => pairs.push(("class".to_string(), value)),
                FURTHER => pairs[0].1 += &format!(" {value}"),
                _ => pairs.push((part(words[1], words[2]), value)),
            }
        }
        pairs
    }

    fn rust_shown(&self) -> Vec<(String, String)> {
        let set = Attributes::try_from(self.set.as_str()).expect("a set");
        let pairs = set.unique_pairs();
        pairs.map(|(k, v)| (k.to_string(), v.to_string())).collect()
    }

    /// Times ours reading, ours reading and sorting, the Rust reading, and the Rust doing both, each once; who is first changes with the round.
    fn run(&mut self, round: usize) {
        for turn in round..round + 4 {
            let mut best = self.best[turn % 4];
            match turn % 4 {
                0 => best.time(|| self.read()),
                1 => best.time(|| self.pairs()),
                2 => best.time(|| Attributes::try_from(black_box(self.set.as_str()))),
                _ if self.has_rust() => best.time(|| rust(black_box(&self.set))),
                _ => {}
            }
            self.best[turn % 4] = best;
        }
    }

    fn ns_per_byte(&self) -> [f64; 4] {
        self.best.map(|best| best.0 / self.set.len() as f64)
    }
}

/// The Rust reads a set and goes through its pairs.
fn rust(set: &str) -> usize {
    let set = Attributes::try_from(set).expect("a set");
    set.unique_pairs().count()
}

pub const HEAD: &str = "\
| Set | bytes | elements | read ns/byte | pairs ns/byte | Rust's read ns/byte | Rust's pairs ns/byte | Rust's pairs / ours | pairs, 4 MB / 64 KB |
|---|--:|--:|--:|--:|--:|--:|--:|--:|";

/// Prints a line for each size.
pub fn print(pairs: &Pairs, runs: usize) {
    let mut small = None;
    for len in SIZES {
        let mut case = Case::new(pairs, len);
        (0..runs).for_each(|round| case.run(round));
        let [read, sorted, rust_read, rust] = case.ns_per_byte();
        let (name, bytes, count) = (pairs.name, case.set.len(), case.count());
        let (rust, times) = match case.has_rust() {
            true => (format!("{rust:.2}"), format!("{:.1}", rust / sorted)),
            false => Default::default(),
        };
        let growth = small.map_or(String::new(), |small: f64| format!("{:.2}", sorted / small));
        println!("| {name} | {bytes} | {count} | {read:.2} | {sorted:.2} | {rust_read:.2} | {rust} | {times} | {growth} |");
        small = Some(sorted);
    }
}
