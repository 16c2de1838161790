//! Answers the leaf operations: one small function of the Rust each.

use crate::block::{probe, ListNumber, ListType};
use crate::frames::readable;
use crate::refuse::{metered, Limits};
use crate::row;
use crate::shim::OrderedListNumbering::{AlphaLower, AlphaUpper, Decimal, RomanLower, RomanUpper};
use crate::shim::OrderedListStyle::{Paren, ParenParen, Period};

/// The operations, in the order of the parser's modules (DECISIONS F2).
pub const OPS: &[u8] = b"LTBMCARIK";

/// The bytes of one list type in a payload of `C`.
pub const TYPE_LEN: usize = 12;

/// The answer's line, without its newline.
pub fn answer(op: u8, payload: &[u8]) -> String {
    if op == b'C' {
        return continued(payload);
    }
    let text = &readable(payload);
    match op {
        b'L' => line_spans(text),
        b'T' => trimmed(text),
        b'B' => label(text),
        b'M' => marker(text),
        b'A' => crate::attr::valid(text).to_string(),
        b'R' => row::checked(text),
        b'I' => probe::identified(text),
        b'K' => measured(text),
        _ => panic!("no operation has the byte {op}"),
    }
}

fn line_spans(text: &str) -> String {
    let spans = probe::line_spans(text);
    let mut out = spans.len().to_string();
    for span in spans {
        out += &format!(" {} {}", span.start, span.end);
    }
    out
}

fn trimmed(text: &str) -> String {
    let [front, end, both] = probe::trims(text, 0..text.len());
    let indent = probe::indent(text);
    format!(
        "{} {} {} {} {indent}",
        front.start, end.end, both.start, both.end
    )
}

fn label(line: &str) -> String {
    match probe::label(line).filter(|_| line.starts_with('[')) {
        Some((footnote, label)) => {
            format!("{} {} {}", 1 + u8::from(footnote), label.start, label.end)
        }
        None => "0 0 0".to_string(),
    }
}

fn marker(line: &str) -> String {
    probe::marker(line).map_or_else(
        || "0".to_string(),
        |(ty, len)| format!("{} {len}", probe::list_type_text(ty)),
    )
}

fn continued(payload: &[u8]) -> String {
    assert!(payload.len() == 2 * TYPE_LEN, "C takes two list types");
    let (before, after) = payload.split_at(TYPE_LEN);
    probe::continued(list_type(before), list_type(after)).map_or_else(
        || "0".to_string(),
        |(before, after)| {
            let (before, after) = (probe::list_type_text(before), probe::list_type_text(after));
            format!("1 {before} {after}")
        },
    )
}

fn list_type(bytes: &[u8]) -> ListType {
    let value = u64::from_le_bytes(bytes[4..].try_into().expect("eight bytes"));
    match bytes[0] {
        1 => ListType::Unordered(bytes[1]),
        2 => {
            let numbering = [Decimal, AlphaLower, AlphaUpper, RomanLower, RomanUpper];
            let numbering = numbering[usize::from(bytes[2]) - 1];
            let style = [Period, Paren, ParenParen][usize::from(bytes[3])];
            ListType::Ordered(ListNumber { numbering, value }, style)
        }
        3 => ListType::Task(bytes[1]),
        4 => ListType::Description,
        kind => panic!("no list type has the kind {kind}"),
    }
}

/// The edited copy answers, since it counts the looks.
fn measured(text: &str) -> String {
    let (block, counts) = metered(Limits::NONE, || crate::judged::probe::measured(text));
    match block.expect("measuring refuses nothing") {
        Some((kind, lines, given)) => format!("{kind} {lines} {} {given}", counts.looks),
        None => "0".to_string(),
    }
}
