//! Scans a table row with the unchanged lexer, and checks the scan against the unchanged table code.

use crate::block::probe;
use crate::lex::{Kind, Lexer, Sequence, Symbol};
use std::ops::Range;

struct Cell {
    /// Where the pipe is that ends the cell.
    end: usize,
    /// The cell without whitespace around it.
    span: Range<usize>,
    separator: bool,
    /// As in E8: 1 left, 2 right, 3 both.
    alignment: u32,
}

struct Row {
    cells: Vec<Cell>,
    /// A backtick run is open at the end.
    open: bool,
}

/// The answer's line for a row's text after its first pipe.
pub fn checked(text: &str) -> String {
    let row = scan(text);
    check(text, &row);
    let mut out = format!("{} {}", row.cells.len(), u8::from(row.open));
    for cell in &row.cells {
        let Cell {
            end,
            span,
            separator,
            alignment,
        } = cell;
        let separator = u8::from(*separator);
        out += &format!(" {end} {} {} {separator} {alignment}", span.start, span.end);
    }
    out
}

fn scan(text: &str) -> Row {
    let mut lexer = Lexer::new(text.as_bytes());
    let (mut pos, mut start) = (0, 0);
    let mut cells = Vec::new();
    let mut run = None;
    while let Some(token) = lexer.next() {
        match (run, token.kind) {
            (None, Kind::Seq(Sequence::Backtick)) => run = Some(token.len),
            (Some(len), Kind::Seq(Sequence::Backtick)) if len == token.len => run = None,
            (None, Kind::Sym(Symbol::Pipe)) => {
                cells.push(cell(text, start, pos));
                start = pos + token.len;
            }
            _ => {}
        }
        lexer.verbatim = run.is_some();
        pos += token.len;
    }
    Row {
        cells,
        open: run.is_some(),
    }
}

fn cell(text: &str, start: usize, end: usize) -> Cell {
    let [_, _, span] = probe::trims(text, start..end);
    let bytes = &text.as_bytes()[span.clone()];
    let left = bytes.starts_with(b":");
    let right = bytes.ends_with(b":");
    // A lone colon is both ends at once and leaves no dash.
    let dashes = bytes.get(usize::from(left)..bytes.len() - usize::from(right));
    let separator = dashes.is_some_and(|d| !d.is_empty() && d.iter().all(|b| *b == b'-'));
    Cell {
        end,
        span,
        separator,
        alignment: u32::from(left) + 2 * u32::from(right),
    }
}

/// Compares the scan with the events of a table whose second row it is, where the text can be one.
/// The first row has more cells, so that it shows every alignment if the second is a separator.
fn check(text: &str, row: &Row) {
    let kept = text.trim_end_matches(|c: char| c.is_ascii_whitespace());
    if text.contains('\n') || !kept.ends_with('|') || kept.ends_with("\\|") {
        return;
    }
    let pipes = text.matches('|').count() + 2;
    let table = format!("{}\n|{text}", "|".repeat(pipes));
    let dropped = !row.open && row.cells.iter().all(|cell| cell.separator);

    let mut expected = vec![event(1, 1, 0..0, 0), event(1, 12, 0..0, 0)];
    let alignments: Vec<_> = row.cells.iter().map(|cell| cell.alignment).collect();
    let first = (1..pipes).map(|pos| {
        let alignment = alignments.get(pos - 1).filter(|_| dropped);
        (pos, pos..pos, pos, *alignment.unwrap_or(&0))
    });
    row_events(&mut expected, 0..pipes, dropped, first);
    if !dropped {
        // The text stands after the first row, its newline and one pipe.
        let base = pipes + 2;
        let mut start = base;
        let second = row.cells.iter().map(|cell| {
            let span = base + cell.span.start..base + cell.span.end;
            let from = std::mem::replace(&mut start, base + cell.end + 1);
            (from, span, base + cell.end, 0)
        });
        row_events(&mut expected, base - 1..base + kept.len(), false, second);
    }
    let end = table.len();
    expected.extend([event(2, 12, end..end, 0), event(2, 1, end..end, 0)]);
    assert!(
        probe::words(&table) == expected,
        "the row scan and the table disagree on {table:?}"
    );
}

/// Adds a row's events; a cell is its start, its text, its pipe and its alignment.
fn row_events(
    events: &mut Vec<[u32; 8]>,
    row: Range<usize>,
    head: bool,
    cells: impl Iterator<Item = (usize, Range<usize>, usize, u32)>,
) {
    events.push(event(1, 13, row.start..row.start + 1, head.into()));
    for (start, span, pipe, alignment) in cells {
        events.push(event(1, 18, start..start, alignment));
        events.push(event(3, 0, span, 0));
        events.push(event(2, 18, pipe..pipe + 1, alignment));
    }
    events.push(event(2, 13, row.end..row.end, head.into()));
}

fn event(role: u32, node: u32, span: Range<usize>, body: u32) -> [u32; 8] {
    let (start, end) = (span.start as u32, span.end as u32);
    [role, node, start, end, body, 0, 0, 0]
}
