//! The worked cases W1 to W10, and those of the first line `full` (V12, V13).

use crate::frames::TextFrame;
use crate::gen_words::plain;
use crate::leaf;
use crate::listing::{self, Mode};
use crate::records;
use crate::words::{parsed, Parsed};

/// What a case says, and whether it holds.
type Case = (&'static str, fn() -> bool);

/// Runs every case; gives how many hold, and those that do not.
pub fn run() -> (usize, Vec<&'static str>) {
    let cases: &[Case] = &[
        ("W1: the empty text has 2 events and no looks", || {
            let parsed = parse("");
            parsed.events.len() == 2 && parsed.looks == 0
        }),
        ("W2: the listing of `a`", || {
            let expected = "E Document 0 0\nE Paragraph 0 0\nI 0 1\nX Paragraph 2 2\n\
                            X Document 2 2\nlooks 1\n";
            both("a\n").iter().all(|listing| listing == expected)
        }),
        ("W3: `*-*` is a break, `--` a paragraph", || {
            has(&parse("*-*"), 4, 3, 1) && has(&parse("--"), 1, 15, 1)
        }),
        ("W4: `xiv.` is 14, `i)` is 1, both roman", || {
            leaf(b'M', "xiv.") == "2 4 0 14 4" && leaf(b'M', "i)") == "2 4 1 1 2"
        }),
        ("W5: nineteen digits are a marker, twenty not", || {
            let nines = |n| "9".repeat(n) + ".";
            leaf(b'M', &nines(19)) == "2 1 0 9999999999999999999 20"
                && leaf(b'M', &nines(20)) == "0"
        }),
        ("W6: separator cells", || {
            leaf(b'R', "-|:-|::||") == "4 0 1 0 1 1 0 4 2 4 1 1 7 5 7 0 3 8 8 8 0 0"
        }),
        ("W7: `{.a}` is a set of 4 bytes, `{.}` none", || {
            leaf(b'A', "{.a}") == "4" && leaf(b'A', "{.}") == "0"
        }),
        ("W8: two sections end at 9", || {
            let ends = |e: &&[u32; 8]| e[..4] == [2, 14, 9, 9];
            parse("# a\n## b\n# c\n").events.iter().filter(ends).count() == 2
        }),
        ("W9: one quote, looks 4, bound 12", || {
            let parsed = parse("> a\nb\n");
            has(&parsed, 1, 2, 1) && parsed.looks == 4 && parsed.bound == 12
        }),
        (
            "W10: a table that gives back its blank lines, looks 9, bound 12",
            || {
                let parsed = parse("|a|\n\n\nb\n");
                parsed.looks == 9 && parsed.bound == 12
            },
        ),
        ("the short listing has no line for a Blankline", || {
            let full = "E Document 0 0\nA Blankline 0 1\nA ThematicBreak 1 4\nX Document 5 5\n\
                        looks 3\n";
            both("\n***\n") == [full.replace("A Blankline 0 1\n", ""), full.to_string()]
        }),
        ("a first line that is exactly `full` is taken off", || {
            let after = |file: &str, text: &str| {
                let [_, full] = both(text);
                listing::of_file(file.as_bytes(), false) == full
            };
            after("full", "")
                && after("full\n", "")
                && after("full\n\na", "\na")
                && after("full\nfull\n", "full\n")
        }),
        (
            "any other first line is text, and the listing short",
            || {
                let other = |file: &str| {
                    let [short, _] = both(file);
                    listing::of_file(file.as_bytes(), false) == short
                };
                let first = [
                    "", "ful", "fullx", "full ", "full\r", " full", "Full", "full\0",
                ];
                other("\nfull\n") && first.iter().all(|line| other(&format!("{line}\n\na\n")))
            },
        ),
        ("the longest text is that after the line", || {
            let long = |line: &str, len| {
                listing::of_file((line.to_string() + &"a".repeat(len)).as_bytes(), false)
            };
            let refused = "refused 1 at 0\n";
            let most = listing::MAX_TEXT;
            long("full\n", most) == long("", most)
                && long("", most) != refused
                && long("", most + 1) == refused
                && long("full\n", most + 1) == refused
        }),
        (
            "a stream may have the line too, and places are behind it",
            || {
                let stream =
                    records::write(parse("\n").events.as_flattened(), 99).unwrap_or_default();
                let of = |line: &str, len| {
                    listing::of_stream(&[line.as_bytes(), &stream[..len]].concat())
                };
                of("full\n", 21) == "E Document 0 0\nA Blankline 0 1\nX Document 1 1\n"
                    && of("", 21) == "E Document 0 0\nX Document 1 1\n"
                    && of("full\n", 20) == "refused 9 at 14\n"
                    && of("full", 0) == "refused 9 at 0\n"
                    && of("full\r\n", 21) == "refused 10 at 0\n"
            },
        ),
    ];
    let failed: Vec<_> = cases.iter().filter(|c| !c.1()).map(|c| c.0).collect();
    (cases.len() - failed.len(), failed)
}

/// The short listing of a text, and the full one.
fn both(text: &str) -> [String; 2] {
    [Mode::Short, Mode::Full].map(|mode| listing::listing(&Ok(parse(text)), mode))
}

fn parse(text: &str) -> Parsed {
    let frame: TextFrame = plain(text.as_bytes());
    parsed(&frame, false).expect("the text is accepted")
}

/// Whether so many events have the role and node.
fn has(parsed: &Parsed, role: u32, node: u32, times: usize) -> bool {
    let events = parsed.events.iter();
    events.filter(|e| e[..2] == [role, node]).count() == times
}

fn leaf(op: u8, payload: &str) -> String {
    leaf::answer(op, payload.as_bytes())
}
