//! Generates texts: blocks of every kind in containers of every kind, whole and damaged.

use crate::random::Random;

/// The lines of a text, without their newlines.
type Lines = Vec<Vec<u8>>;

/// Bytes and markers that mean something to some rule.
const TOKENS: &[&str] = &[
    "\n", "\n", "\n", " ", "  ", "\t", "\r", "\x0c", "\x0b", "a", "b c", "é", "\u{a0}", "#", "##",
    "> ", ">", "- ", "* ", "+ ", "-", "*", ": ", ":", ":::", "```", "~~~", "`", "|", "\\", "[",
    "]", "]: ", "[^", "^ ", "{", "}", ".", "=", "%", "\"", "1. ", "i) ", "(a) ", "(", ")", "[ ]",
    "[x] ", "---", "{.a}", "|-|", "\x01", "x",
];

/// Item markers in the order in which they may follow each other.
const MARKERS: &[&[&str]] = &[
    &["-", "-", "-", "*"],
    &["*", "*", "- [x]", "*"],
    &["+", "+ [ ]", "+"],
    &["- [ ]", "- [x]", "- [X]"],
    &["1.", "2.", "3)", "7)"],
    &["(1)", "(9999999999999999999)", "(3)"],
    &["a.", "b.", "c.", "d."],
    &["a.", "c."],
    &["i.", "ii.", "iii.", "iv."],
    &["i)", "j)", "k)"],
    &["i.", "i.", "j."],
    &["h)", "i)", "j)", "k)"],
    &["(c)", "(d)", "(e)"],
    &["iiiii.", "w."],
    &["vx.", "w."],
    &["I.", "II.", "J."],
    &["C.", "D.", "E.", "M."],
    &["mmmmdcccxxiv)", "mmmmmmmmmmmmm)", "99999999999999999999."],
    &[":", ":", ":"],
    &["-", "1.", ":", "[^a]:"],
];

/// One line of any kind, mostly with an end.
pub fn line(random: &mut Random) -> Vec<u8> {
    let mut text = match random.below(4) {
        0 => random.soup(&[" ", "  ", "\t", "\x0c", "\r"], 2),
        _ => Vec::new(),
    };
    let mut lines = block(random, 2);
    text.append(&mut lines[0]);
    text.extend(random.pick(&["\n", "\n", "\n", "\r\n", " \n", ""]).bytes());
    if random.once_in(4) {
        damage(&mut text, random);
    }
    text
}

/// A block with some lines after it that may continue it.
pub fn block_and_more(random: &mut Random) -> Vec<u8> {
    let mut lines = block(random, 1);
    for _ in 0..random.below(4) {
        let mut more = block(random, 1);
        indent(random, &mut more);
        lines.append(&mut more);
    }
    finished(random, lines)
}

/// A text of some blocks.
pub fn text(random: &mut Random) -> Vec<u8> {
    match random.below(20) {
        0 => (0..random.below(24)).map(|_| random.any_byte()).collect(),
        1..=4 => random.soup(TOKENS, 24),
        _ => {
            let depth = random.below(4);
            let lines = blocks(random, depth);
            finished(random, lines)
        }
    }
}

/// A block of any kind, whole lines.
pub fn piece(random: &mut Random) -> Vec<u8> {
    let depth = random.below(3);
    let lines = block(random, depth);
    joined(lines, || "\n")
}

/// A block inside about 32 containers, all well formed.
pub fn nested(random: &mut Random) -> Vec<u8> {
    let mut lines = block(random, 1);
    for depth in 0..random.between(30, 34) {
        lines = match random.below(5) {
            0 | 1 => below("> ", "> ", lines),
            2 => {
                // An outer fence is longer than all inside it.
                let fence = ":".repeat(3 + depth).into_bytes();
                lines.insert(0, fence.clone());
                lines.push(fence);
                lines
            }
            _ => {
                let first = random.pick(&["- ", "* [x] ", "1. ", "(i) ", ": ", "[^a]: "]);
                below(first, &" ".repeat(first.len()), lines)
            }
        };
    }
    let mut text = joined(lines, || "\n");
    if random.once_in(4) {
        damage(&mut text, random);
    }
    text
}

/// The first line after one prefix, the others after another.
fn below(first: &str, rest: &str, lines: Lines) -> Lines {
    let prefixes = std::iter::once(first).chain(std::iter::repeat(rest));
    prefixes
        .zip(lines)
        .map(|(p, line)| prefixed(p, line))
        .collect()
}

/// Headings that open about 32 sections.
pub fn sections(random: &mut Random) -> Vec<u8> {
    let mut lines = Lines::new();
    for level in 1..=random.between(30, 34) {
        if random.once_in(6) {
            lines.push(random.pick(&["{.a}", "", "a\n", "> # b"]).into());
        }
        lines.push(marked(level, " a"));
    }
    let level = random.between(1, 36);
    lines.push(marked(level, " b"));
    finished(random, lines)
}

/// A heading about as long as one may be, or a line that only looks like it.
pub fn long_heading(random: &mut Random) -> Vec<u8> {
    let marks = random.between(65_534, 65_537);
    let after = random.pick(&["", " a", "\n", "\na", "\n\n", "b", "\n# c\n"]);
    let mut text = random
        .pick(&[
            "", "", "a\n\n", "a\n", "- b\n\n", "> ", "- ", "# a\n", "```\n",
        ])
        .as_bytes()
        .to_vec();
    text.extend(marked(marks, after));
    text
}

fn marked(marks: usize, after: &str) -> Vec<u8> {
    ("#".repeat(marks) + after).into_bytes()
}

fn finished(random: &mut Random, mut lines: Lines) -> Vec<u8> {
    if random.once_in(4) {
        indent(random, &mut lines);
    }
    let ends: &[&str] = match random.below(8) {
        0 => &["\r\n"],
        1 => &["\n", "\r\n", " \n", "\t\n", "\x0c\n", "\x0b\n", "\n\n"],
        _ => &["\n"],
    };
    let mut text = joined(lines, || random.pick(ends));
    if random.once_in(3) {
        text.pop();
    }
    if random.once_in(2) {
        for _ in 0..random.between(1, 4) {
            damage(&mut text, random);
        }
    }
    text
}

fn joined<'a>(lines: Lines, mut end: impl FnMut() -> &'a str) -> Vec<u8> {
    let mut text = Vec::new();
    for line in lines {
        text.extend_from_slice(&line);
        text.extend(end().bytes());
    }
    text
}

/// Moves some lines to the right.
fn indent(random: &mut Random, lines: &mut Lines) {
    for line in lines {
        if random.once_in(4) {
            let space = random.pick(&[" ", "  ", "   ", "\t", "\x0c"]);
            line.splice(0..0, space.bytes());
        }
    }
}

/// One change to the text: of a byte, a token or a line.
pub fn damage(text: &mut Vec<u8>, random: &mut Random) {
    let place = random.below(text.len() + 1);
    let here = place..text.len().min(place + 1);
    match random.below(7) {
        0 => drop(text.splice(here, [random.any_byte()])),
        1 => drop(text.drain(here)),
        2 => drop(text.splice(place..place, text[here].to_vec())),
        3 | 4 => drop(text.splice(place..place, random.pick(TOKENS).bytes())),
        5 => drop(text.splice(here, random.pick(TOKENS).bytes())),
        _ => {
            let mut lines: Vec<&[u8]> = text.split_inclusive(|b| *b == b'\n').collect();
            if !lines.is_empty() {
                let (one, other) = (random.below(lines.len()), random.below(lines.len()));
                lines.swap(one, other);
                *text = lines.concat();
            }
        }
    }
}

fn blocks(random: &mut Random, depth: usize) -> Lines {
    let mut lines = block(random, depth);
    for _ in 0..random.below(4) {
        if random.once_in(2) {
            lines.push(random.pick(&["", "", "", " ", "\t"]).into());
        }
        lines.append(&mut block(random, depth));
    }
    lines
}

fn block(random: &mut Random, depth: usize) -> Lines {
    const ONE_LINERS: &[&str] = &[
        "---",
        "* * *",
        "*-*",
        "--",
        "- - -",
        "{.a}",
        "{#b k=\"v\"}",
        "{%c%}",
        "{%}",
        "{.a .b",
        "",
        "",
        " ",
        "[a]: b",
        "[a]:",
        "[]:",
        "  [a]: b",
        "[a]b]: c",
        "[^a]:",
        "-",
        "*",
        "+",
        ":",
        "1.",
        "(i)",
        ">",
        "#",
    ];
    match random.below(if depth == 0 { 7 } else { 14 }) {
        0 => paragraph(random),
        1 => heading(random),
        2 => code(random),
        3 => table(random),
        4 => link_definition(random),
        5 | 6 => vec![random.pick(ONE_LINERS).into()],
        7..=9 => items(random, depth),
        _ => {
            let inner = blocks(random, depth - 1);
            contained(random, inner)
        }
    }
}

fn inline(random: &mut Random) -> Vec<u8> {
    const PIECES: &[&str] = &[
        "a", "b c", "é", "*d*", "`", "|", "\\", "x.", " ", "]", ":", "-", "#", " > ",
    ];
    let mut text = random.pick(&["a", "b", "word", "é"]).as_bytes().to_vec();
    text.extend(random.soup(PIECES, 4));
    text
}

fn prefixed(prefix: &str, mut line: Vec<u8>) -> Vec<u8> {
    line.splice(0..0, prefix.bytes());
    line
}

fn paragraph(random: &mut Random) -> Lines {
    (0..random.between(1, 3)).map(|_| inline(random)).collect()
}

fn heading(random: &mut Random) -> Lines {
    let level = random.pick(&[1, 1, 2, 2, 3, 5]);
    let mut lines = Lines::new();
    for _ in 0..random.pick(&[1, 1, 1, 2, 3]) {
        let marks = "#".repeat(random.pick(&[level, level, level, 0, level + 1]));
        let after = random.pick(&[" ", " ", " ", "", "\t", "  "]);
        let text = if random.once_in(5) {
            Vec::new()
        } else {
            inline(random)
        };
        lines.push(prefixed(&(marks + after), text));
    }
    lines
}

fn code(random: &mut Random) -> Lines {
    const SPECS: &[&str] = &[
        "", "", "", "rust", " rust ", " =html", "=", "=x\t", " a b", "a`b", " é",
    ];
    const CONTENT: &[&str] = &[
        "a", "  b", "", " ", "```", "~~~", ":::", "# a", "> b", "\tc ", "| d |", "- e",
    ];
    let indent = random.pick(&["", "", "", " ", "   "]);
    let mark = random.pick(&["`", "~"]);
    let len = random.pick(&[3, 3, 3, 4, 5]);
    let fence = indent.to_string() + &mark.repeat(len);
    let mut lines = vec![(fence + random.pick(SPECS)).into_bytes()];
    for _ in 0..random.below(4) {
        lines.push((random.pick(&["", indent]).to_string() + random.pick(CONTENT)).into_bytes());
    }
    if !random.once_in(6) {
        let close = mark.repeat(len + random.pick(&[0, 0, 0, 1]));
        let indent = random.pick(&["", indent, "  "]);
        lines.push((indent.to_string() + &close + random.pick(&["", "", " ", "a"])).into_bytes());
    }
    lines
}

fn table(random: &mut Random) -> Lines {
    const CELLS: &[&str] = &[
        "a", " b ", "", " ", "`c`", "`|`", "\\|", "`", "é", "-", ":-", "``d`", "\\",
    ];
    const SEPARATORS: &[&str] = &["-", ":-", "-:", ":-:", " --- ", ":--", "::"];
    let mut lines = Lines::new();
    for _ in 0..random.between(1, 4) {
        let cells = random.pick(&[CELLS, CELLS, SEPARATORS]);
        let mut row = b"|".to_vec();
        for _ in 0..random.pick(&[0, 1, 1, 2, 2, 3]) {
            row.extend(random.pick(cells).bytes());
            row.push(b'|');
        }
        lines.push(row);
    }
    for _ in 0..random.pick(&[0, 0, 0, 1, 2]) {
        lines.push(random.pick(&["", " ", "\t"]).into());
    }
    if random.once_in(3) {
        lines.push(prefixed(
            random.pick(&["^ ", " ^ ", "^", "^  ", "^ ^ "]),
            inline(random),
        ));
        for _ in 0..random.below(2) {
            lines.push(random.pick(&["more", "|a|", "  b ", "^ c"]).into());
        }
    }
    lines
}

fn link_definition(random: &mut Random) -> Lines {
    let mut lines = vec![prefixed(
        random.pick(&["[a]: ", "[]:", " [b c]: ", "[é]:  "]),
        inline(random),
    )];
    for _ in 0..random.below(3) {
        lines.push(prefixed(
            random.pick(&[" ", "  ", "\t", ""]),
            inline(random),
        ));
    }
    lines
}

fn items(random: &mut Random, depth: usize) -> Lines {
    let markers = random.pick(MARKERS);
    let mut lines = Lines::new();
    for marker in &markers[random.below(markers.len())..] {
        let inner = blocks(random, depth - 1);
        lines.append(&mut item(random, marker, inner));
        if random.once_in(3) {
            lines.push(Vec::new());
        }
    }
    lines
}

/// The lines inside one container, of whichever kind.
fn contained(random: &mut Random, inner: Lines) -> Lines {
    match random.below(6) {
        0 | 1 => quote(random, inner),
        2 => div(random, inner),
        3 => {
            let label = random.pick(&["[^a]:", "[^]:", "[^note 1]:"]);
            item(random, label, inner)
        }
        _ => {
            let markers = random.pick(MARKERS);
            let marker = random.pick(markers);
            item(random, marker, inner)
        }
    }
}

fn quote(random: &mut Random, inner: Lines) -> Lines {
    let prefix = random.pick(&["> ", "> ", "> ", ">\t", " > ", ">\x0c"]);
    let mut lines = Lines::new();
    for line in inner {
        // A line without the prefix is a lazy one.
        let lazy = !lines.is_empty() && random.once_in(12);
        lines.push(match lazy {
            true => line,
            false if line.is_empty() => b">".to_vec(),
            false => prefixed(prefix, line),
        });
    }
    lines
}

/// Items and footnotes: the first line after the marker, the others below it.
fn item(random: &mut Random, marker: &str, inner: Lines) -> Lines {
    let first =
        random.pick(&["", "", "", " "]).to_string() + marker + random.pick(&[" ", " ", "  "]);
    let usual = " ".repeat(first.len());
    let mut lines = Lines::new();
    for line in inner {
        let prefix = match lines.is_empty() {
            true => &first,
            false if line.is_empty() => "",
            false => random.pick(&[
                &usual, &usual, &usual, &usual, &usual, &usual, "  ", " ", "",
            ]),
        };
        lines.push(prefixed(prefix, line));
    }
    lines
}

fn div(random: &mut Random, mut inner: Lines) -> Lines {
    let fence = random.pick(&[":::", ":::", "::::", " :::"]);
    let class = random.pick(&["", "", " note", "a", " a b", " é"]);
    inner.insert(0, (fence.to_string() + class).into_bytes());
    if !random.once_in(6) {
        inner.push((fence.to_string() + random.pick(&["", "", "", ":", " "])).into_bytes());
    }
    inner
}
