// Our window on the private items of block.rs: a child module of each of the two copies.

use super::*;
use crate::refuse;
use std::ops::Range;

/// The offsets of `part` in the text that it is a part of.
fn offsets(text: &str, part: &str) -> Range<usize> {
    let start = part.as_ptr() as usize - text.as_ptr() as usize;
    start..start + part.len()
}

/// Every event of the text in its eight words (E1).
pub fn words(text: &str) -> Vec<[u32; 8]> {
    parse(text).iter().map(|e| event_words(text, e)).collect()
}

fn event_words(text: &str, event: &Event) -> [u32; 8] {
    let (role, (node, body)) = match event.kind {
        EventKind::Stale => return [0; 8],
        EventKind::Enter(node) => (1, node_words(text, node)),
        EventKind::Exit(node) => (2, node_words(text, node)),
        EventKind::Inline => (3, (0, [0; 4])),
        EventKind::Atom(atom) => (4, (atom_number(atom), [0; 4])),
    };
    let [a, b, c, d] = body;
    let span = (event.span.start as u32, event.span.end as u32);
    [role, node, span.0, span.1, a, b, c, d]
}

fn atom_number(atom: Atom) -> u32 {
    match atom {
        Blankline => 1,
        Attributes => 2,
        ThematicBreak => 3,
    }
}

/// A node's number and body.
fn node_words(text: &str, node: Node) -> (u32, [u32; 4]) {
    let pair = |part| {
        let span = offsets(text, part);
        [span.start as u32, span.end as u32, 0, 0]
    };
    match node {
        Node::Container(container) => match container {
            Document => (1, [0; 4]),
            Blockquote => (2, [0; 4]),
            Div { class } => (3, pair(class)),
            List { ty, tight } => list_words(ty, tight),
            ListItem(ListItemKind::List) => (8, [0; 4]),
            ListItem(ListItemKind::Task { checked }) => (9, [checked.into(), 0, 0, 0]),
            ListItem(ListItemKind::Description) => (10, [0; 4]),
            Footnote { label } => (11, pair(label)),
            Table => (12, [0; 4]),
            TableRow { head } => (13, [head.into(), 0, 0, 0]),
            Section { pos } => (14, [pos, 0, 0, 0]),
        },
        Node::Leaf(leaf) => match leaf {
            Paragraph => (15, [0; 4]),
            Heading {
                level,
                has_section,
                pos,
            } => (16, [level.into(), has_section.into(), pos, 0]),
            DescriptionTerm => (17, [0; 4]),
            TableCell(alignment) => (18, [alignment as u32, 0, 0, 0]),
            Caption => (19, [0; 4]),
            LinkDefinition { label } => (20, pair(label)),
            CodeBlock { language } => (21, pair(language)),
        },
    }
}

fn list_words(ty: ListType, tight: bool) -> (u32, [u32; 4]) {
    let tight = tight.into();
    match ty {
        Unordered(bullet) => (4, [tight, bullet.into(), 0, 0]),
        Ordered(ListNumber { numbering, value }, style) => {
            let form = numbering as u32 * 4 + style as u32;
            (5, [tight, form, value as u32, (value >> 32) as u32])
        }
        Task(bullet) => (6, [tight, bullet.into(), 0, 0]),
        Description => (7, [tight, 0, 0, 0]),
    }
}

pub fn line_spans(text: &str) -> Vec<Range<usize>> {
    lines(text).collect()
}

/// `part` without whitespace at the front, without it at the end, and without both.
pub fn trims(text: &str, part: Range<usize>) -> [Range<usize>; 3] {
    let parser = TreeParser::new(text);
    [
        parser.trim_start(part.clone()),
        parser.trim_end(part.clone()),
        parser.trim(part),
    ]
}

/// Where the block of a line begins after its indent; a definition's span takes the indent in.
fn marker_start(kind: &Kind, span_start: usize) -> usize {
    match kind {
        Kind::Definition { indent, .. } => span_start + indent,
        _ => span_start,
    }
}

pub fn indent(line: &str) -> usize {
    let IdentifiedBlock { kind, span } = IdentifiedBlock::new(line);
    marker_start(&kind, span.start)
}

/// The label of a definition line, and whether it is a footnote's.
pub fn label(line: &str) -> Option<(bool, Range<usize>)> {
    match IdentifiedBlock::new(line).kind {
        Kind::Definition {
            footnote, label, ..
        } => Some((footnote, offsets(line, label))),
        _ => None,
    }
}

/// The list type and marker length of a line that begins with a list marker.
pub fn marker(line: &str) -> Option<(ListType, usize)> {
    if line.starts_with(['-', '*', '+', ':']) {
        let IdentifiedBlock { kind, span } = IdentifiedBlock::new(line);
        match kind {
            Kind::ListItem { ty, .. } => Some((ty, span.len())),
            _ => None,
        }
    } else if line.is_empty() {
        None
    } else {
        IdentifiedBlock::maybe_ordered_list_item(line)
            .map(|(number, style, len)| (Ordered(number, style), len))
    }
}

pub fn continued(before: ListType, after: ListType) -> Option<(ListType, ListType)> {
    before.continues(&after)
}

/// A list type as its fields.
pub fn list_type_text(ty: ListType) -> String {
    match ty {
        Unordered(bullet) => format!("1 {bullet}"),
        Ordered(ListNumber { numbering, value }, style) => {
            format!("2 {} {} {value}", numbering as u32, style as u32)
        }
        Task(bullet) => format!("3 {bullet}"),
        Description => "4".to_string(),
    }
}

fn kind_text(line: &str, kind: &Kind) -> String {
    match kind {
        Kind::Atom(atom) => atom_number(*atom).to_string(),
        Kind::Paragraph => "4".to_string(),
        Kind::Heading { level } => format!("5 {level}"),
        Kind::Fenced {
            indent,
            fence_length,
            kind,
            spec,
            has_closing_fence,
            nested_raw,
        } => {
            let fence = match kind {
                FenceKind::Div => b':',
                FenceKind::CodeBlock(fence) => *fence,
            };
            let Range { start, end } = offsets(line, spec);
            let closed = u8::from(*has_closing_fence);
            let (nested, nested_len) = nested_raw.unwrap_or((0, 0));
            format!(
                "6 {indent} {fence_length} {fence} {start} {end} {closed} {nested} {nested_len}"
            )
        }
        Kind::Definition {
            indent,
            footnote,
            label,
            last_blankline,
        } => {
            let Range { start, end } = offsets(line, label);
            let (footnote, blank) = (u8::from(*footnote), u8::from(*last_blankline));
            format!("7 {indent} {footnote} {start} {end} {blank}")
        }
        Kind::Blockquote => "8".to_string(),
        Kind::ListItem {
            indent,
            ty,
            last_blankline,
        } => {
            let blank = u8::from(*last_blankline);
            format!("9 {indent} {} {blank}", list_type_text(*ty))
        }
        Kind::Table { caption, blankline } => {
            format!("10 {} {}", u8::from(*caption), u8::from(*blankline))
        }
    }
}

/// A block's kind and its opening span.
fn begun_text(line: &str, kind: &Kind, span: &Range<usize>) -> String {
    format!("{} {} {}", kind_text(line, kind), span.start, span.end)
}

/// What a line begins.
pub fn identified(line: &str) -> String {
    let IdentifiedBlock { kind, span } = IdentifiedBlock::new(line);
    begun_text(line, &kind, &span)
}

/// The first block of a text: its kind after its lines and opening span, how many lines it has,
/// and how many blank ones it gives back. None if the text is empty.
pub fn measured(text: &str) -> Option<(String, usize, usize)> {
    let spans = line_spans(text);
    let block = MeteredBlock::new(spans.iter().map(|sp| &text[sp.clone()]))?;
    let given = match block.kind {
        Kind::Table {
            caption: false,
            blankline: true,
        } => spans[..block.line_count]
            .iter()
            .rev()
            .take_while(|sp| trims(text, (*sp).clone())[2].is_empty())
            .count(),
        _ => 0,
    };
    let begun = begun_text(text, &block.kind, &block.span);
    Some((begun, block.line_count, given))
}

/// Called by the edited copy for a block just measured: says to the meter what
/// refusals 3, 4 and 5 (R8 to R10) go by.
pub(super) fn meet(kind: &Kind, span_start: usize, top_level: bool, open_sections: &[usize]) {
    let container = matches!(
        kind,
        Kind::Blockquote
            | Kind::ListItem { .. }
            | Kind::Definition { footnote: true, .. }
            | Kind::Fenced {
                kind: FenceKind::Div,
                ..
            }
    );
    let (marks, sections) = match kind {
        Kind::Heading { level } => {
            let kept = open_sections.iter().rposition(|l| l < level);
            (
                *level,
                if top_level {
                    kept.map_or(0, |i| i + 1) + 1
                } else {
                    0
                },
            )
        }
        _ => (0, 0),
    };
    refuse::meet(marker_start(kind, span_start), container, marks, sections);
}
