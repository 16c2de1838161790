//! The texts that are timed, each made at exactly the asked length.

/// Pieces in a row, the last one cut where the length is reached.
fn repeated(piece: impl Fn(usize) -> String, len: usize) -> String {
    let mut text = String::with_capacity(len);
    for n in 0.. {
        text += &piece(n);
        if text.len() >= len {
            break;
        }
    }
    text.truncate(len);
    text
}

const RUNBOOK: &str = include_str!("../../../examples/runbook.dj");
const LINE: &str = "The queue is drained one worker at a time, and the graph must stay flat.\n";

/// Paragraphs of two to six lines.
fn flat(len: usize) -> String {
    repeated(|n| LINE.repeat(n % 5 + 2) + "\n", len)
}

fn runbook(len: usize) -> String {
    repeated(|_| RUNBOOK.to_string() + "\n", len)
}

/// Lists of one item each, 30 within each other, then a paragraph that closes them all.
fn lists(len: usize) -> String {
    let item = |depth| format!("{}- step {depth}\n\n", "  ".repeat(depth));
    let nested: String = (0..30).map(item).collect();
    repeated(|_| format!("{nested}end\n\n"), len)
}

/// A line within 30 quotes; every seventh is blank.
fn quoted(n: usize) -> String {
    let line = if n % 7 == 6 {
        ""
    } else {
        "a line of the quote"
    };
    format!("{}{line}\n", "> ".repeat(30))
}

/// 20 lines within 30 quotes, then a paragraph outside, over and over.
fn quotes(len: usize) -> String {
    let quote: String = (0..20).map(quoted).collect();
    repeated(|_| format!("{quote}\nend\n\n"), len)
}

/// 30 quotes around the whole text: each of them goes through all of it.
fn one_quote(len: usize) -> String {
    repeated(quoted, len)
}

/// Tables with a head, 38 rows and a caption.
fn tables(len: usize) -> String {
    let head = "| Hour | Team | Phone |\n|:-----|:----:|------:|\n";
    let piece = |n| match n % 40 {
        0 => head.to_string(),
        39 => "^ Numbers inside\n\n".to_string(),
        _ => format!("| {n} | platform `a|b` | 11{n} |\n"),
    };
    repeated(piece, len)
}

/// One description list.
fn glossary(len: usize) -> String {
    repeated(
        |n| format!(": term {n}\n\n  What the term means, in a line or two.\n\n"),
        len,
    )
}

/// An attribute line with a class, an id, a pair and a comment before each paragraph.
fn attributes(len: usize) -> String {
    repeated(
        |n| format!("{{.page #id{n} owner=\"the payments team\" %note%}}\ntext\n\n"),
        len,
    )
}

/// Half the text is one separator row, the other half rows that it aligns: bad if its cells are read
/// again for each row.
fn separator_over_rows(len: usize) -> String {
    let dashes = "-".repeat(len / 6);
    let head = format!("|a|b|c|\n|:{dashes}|:{dashes}:|{dashes}:|\n");
    repeated(
        |n| {
            if n == 0 {
                head.clone()
            } else {
                "|1|2|3|\n".to_string()
            }
        },
        len,
    )
}

/// A separator cell of 1,000 dashes in every other row.
fn separators_in_rows(len: usize) -> String {
    let separator = format!("|{}|\n", "-".repeat(1000));
    repeated(
        |n| {
            if n % 2 == 0 {
                separator.clone()
            } else {
                "|a|\n".to_string()
            }
        },
        len,
    )
}

/// Four rows, one of them a separator, as wide as the length allows: bad if a cell's alignment is
/// sought from the first cell on.
fn wide_rows(len: usize) -> String {
    let cells = len / 8 - 1;
    let row = |cell: &str| cell.repeat(cells) + "|\n";
    let text = row("|a") + &row("|-") + &row("|b") + &row("|c");
    let padding = len - text.len();
    format!("{}{}|\n", &text[..text.len() - 2], "c".repeat(padding))
}

fn separator_a_row(len: usize) -> String {
    repeated(|_| "|a|b|\n|-|:-|\n".to_string(), len)
}

/// 32 sections, attribute lines to the end, and a heading there: the sections' Exits go before all the
/// lines.
fn sections(len: usize) -> String {
    let open: String = (1..=32).map(|level| "#".repeat(level) + " a\n\n").collect();
    let close = "# b\n";
    let run = len - open.len() - close.len();
    let (lines, rest) = (run / 5 - 1, run % 5);
    format!(
        "{open}{}{{.a{}}}\n{close}",
        "{.a}\n".repeat(lines),
        "a".repeat(rest)
    )
}

/// At each depth a table and then blank lines, an equal share of the text for each.
fn blank_lines(
    len: usize,
    table: impl Fn(usize) -> String,
    blank: impl Fn(usize) -> String,
) -> String {
    const DEPTHS: usize = 33; // 0 to 32, the limit
    let mut text = String::with_capacity(len + 100);
    for depth in 0..DEPTHS {
        text += &table(depth);
        let blank = blank(depth);
        while text.len() < len * (depth + 1) / DEPTHS {
            text += &blank;
        }
    }
    text.truncate(len);
    text
}

fn blank_lines_in_quotes(len: usize) -> String {
    let prefix = |depth| "> ".repeat(depth);
    blank_lines(
        len,
        |depth| prefix(depth) + "|a|\n",
        |depth| prefix(depth) + "\n",
    )
}

/// A blank line in an item needs no prefix: a byte is a line at every depth.
fn blank_lines_in_items(len: usize) -> String {
    let table = |depth: usize| match depth {
        0 => "|a|\n".to_string(),
        _ => "  ".repeat(depth - 1) + "- |a|\n",
    };
    blank_lines(len, table, |_| "\n".to_string())
}

fn one_line(len: usize) -> String {
    "a".repeat(len)
}

/// Bad if a `]` is sought from each `[` on.
fn brackets_in_a_line(len: usize) -> String {
    "[".repeat(len)
}

/// Bad if a `]` is sought beyond the line.
fn brackets_in_lines(len: usize) -> String {
    repeated(|_| "[a label that does not end\n\n".to_string(), len)
}

/// Rows with one run each, a backtick longer from row to row. No run is closed.
fn ticks_in_rows(len: usize) -> String {
    repeated(|n| format!("|{}a|\n", "`".repeat(n + 1)), len)
}

/// One row of runs, each a backtick longer: bad if the end of each run is sought.
fn ticks_in_a_row(len: usize) -> String {
    let mut text = repeated(|n| format!("|{}", "`".repeat(n + 1)), len);
    text.replace_range(len - 2.., "|\n");
    text
}

/// Items of 100,000 lines of ten bytes: one in a megabyte.
fn long_items(len: usize) -> String {
    let line = |n| {
        if n % 100_000 == 0 {
            "- an item\n"
        } else {
            "  with it\n"
        }
    };
    repeated(|n| line(n).to_string(), len)
}

/// The same lines, all in one item.
fn one_item(len: usize) -> String {
    repeated(
        |n| if n == 0 { "- an item\n" } else { "  with it\n" }.to_string(),
        len,
    )
}

/// A paragraph, then a thousand empty lines, over and over: nearly each byte is a block.
fn empty_lines(len: usize) -> String {
    let piece = format!("{LINE}{}", "\n".repeat(1000));
    repeated(|_| piece.clone(), len)
}

fn one_paragraph(len: usize) -> String {
    repeated(|_| LINE.to_string(), len)
}

pub struct Text {
    pub name: &'static str,
    pub kind: &'static str,
    pub make: fn(usize) -> String,
}

const fn usual(name: &'static str, make: fn(usize) -> String) -> Text {
    let kind = "usual";
    Text { name, kind, make }
}

const fn adversarial(name: &'static str, make: fn(usize) -> String) -> Text {
    let kind = "adversarial";
    Text { name, kind, make }
}

pub const TEXTS: &[Text] = &[
    usual("flat paragraphs", flat),
    usual("mixed runbook", runbook),
    usual("lists, 30 deep", lists),
    usual("quotes, 30 deep", quotes),
    usual("tables, 38 rows", tables),
    usual("glossary", glossary),
    usual("attributes", attributes),
    adversarial("long separator over many rows", separator_over_rows),
    adversarial("long separators in many rows", separators_in_rows),
    adversarial("a separator a row", separator_a_row),
    adversarial("wide rows", wide_rows),
    adversarial("32 sections before attributes", sections),
    adversarial("blank lines after tables, quotes", blank_lines_in_quotes),
    adversarial("blank lines after tables, items", blank_lines_in_items),
    adversarial("one line", one_line),
    adversarial("`[` without `]`, one line", brackets_in_a_line),
    adversarial("`[` without `]`, many lines", brackets_in_lines),
    adversarial("growing backtick runs, one row", ticks_in_a_row),
    adversarial("growing backtick runs, many rows", ticks_in_rows),
    adversarial("items of 100,000 lines", long_items),
    adversarial("one item of all lines", one_item),
    adversarial("quotes of all lines, 30 deep", one_quote),
];

/// Those of which two editions are compared.
pub const EDITIONS: &[Text] = &[
    usual("flat paragraphs", flat),
    usual("mixed runbook", runbook),
    usual("lists, 30 deep", lists),
    usual("quotes, 30 deep", quotes),
    usual("tables, 38 rows", tables),
    usual("glossary", glossary),
    adversarial("empty lines", empty_lines),
    adversarial("one paragraph", one_paragraph),
    adversarial("one line", one_line),
    adversarial("one item of all lines", one_item),
];
