//! Writes the listing (RULES V), in full and without blank lines.

use crate::frames::TextFrame;
use crate::records;
use crate::refuse::Refusal;
use crate::words::{parsed, Parsed, LIMIT};

/// The listing program takes texts up to this length and lends this many words of each kind.
pub const MAX_TEXT: usize = 32_768;
const LENT_WORDS: u32 = 16_384;

/// Nodes from 1 on: name, and how many words of the body are used.
const NODES: [(&str, usize); 21] = [
    ("Document", 0),
    ("Blockquote", 0),
    ("Div", 2),
    ("Unordered", 2),
    ("Ordered", 4),
    ("TaskList", 2),
    ("DescriptionList", 1),
    ("Item", 0),
    ("TaskItem", 1),
    ("DescriptionItem", 0),
    ("Footnote", 2),
    ("Table", 0),
    ("TableRow", 1),
    ("Section", 1),
    ("Paragraph", 0),
    ("Heading", 3),
    ("DescriptionTerm", 0),
    ("TableCell", 1),
    ("Caption", 0),
    ("LinkDefinition", 2),
    ("CodeBlock", 2),
];

/// Atoms from 1 on.
const ATOMS: [&str; 3] = ["Blankline", "Attributes", "ThematicBreak"];

/// The role and node of a Blankline.
const BLANKLINE: [u32; 2] = [4, 1];

/// Which events have a line.
#[derive(Clone, Copy, PartialEq)]
pub enum Mode {
    /// All but Blanklines.
    Short,
    /// All.
    Full,
}

impl Mode {
    /// The mode that a file asks for, and the file without the line that says so: a first line that is exactly `full`.
    pub fn of_file(bytes: &[u8]) -> (Self, &[u8]) {
        let mut lines = bytes.splitn(2, |byte| *byte == b'\n');
        match (lines.next(), lines.next()) {
            (Some(b"full"), rest) => (Self::Full, rest.unwrap_or_default()),
            _ => (Self::Short, bytes),
        }
    }
}

/// The listing of a whole file, with the listing program's limits. All of it is of the text after a first line `full`.
pub fn of_file(file: &[u8], rust_raw: bool) -> String {
    let (mode, text) = Mode::of_file(file);
    if text.len() > MAX_TEXT {
        let refusal = Refusal {
            number: 1,
            position: 0,
        };
        return listing(&Err(refusal), mode);
    }
    let frame = TextFrame {
        line_words: LENT_WORDS,
        event_words: LENT_WORDS,
        nesting: LIMIT,
        sections: LIMIT,
        text: text.to_vec(),
    };
    listing(&parsed(&frame, rust_raw), mode)
}

/// The listing of a file with a record stream, with the room of the program that recalls it. A stream does not say the looks.
pub fn of_stream(file: &[u8]) -> String {
    let (mode, stream) = Mode::of_file(file);
    match records::read(stream, LENT_WORDS as usize) {
        Ok(events) => events.iter().map(|event| line(event, mode)).collect(),
        Err(refusal) => listing(&Err(refusal), mode),
    }
}

pub fn listing(answer: &Result<Parsed, Refusal>, mode: Mode) -> String {
    match answer {
        Ok(parsed) => {
            let events: String = parsed
                .events
                .iter()
                .map(|event| line(event, mode))
                .collect();
            format!("{events}looks {}\n", parsed.looks)
        }
        Err(Refusal { number, position }) => format!("refused {number} at {position}\n"),
    }
}

/// The event's line; a Stale event has none, and in the short listing a Blankline neither.
pub fn line(event: &[u32; 8], mode: Mode) -> String {
    let [role, node, start, end, body @ ..] = event;
    if mode == Mode::Short && [*role, *node] == BLANKLINE {
        return String::new();
    }
    let number = (*node as usize).wrapping_sub(1);
    let (role, name, used) = match role {
        0 => return String::new(),
        1 => ("E ", NODES[number].0, NODES[number].1),
        2 => ("X ", NODES[number].0, NODES[number].1),
        3 => ("I", "", 0),
        _ => ("A ", ATOMS[number], 0),
    };
    let body: String = body[..used].iter().map(|word| format!(" {word}")).collect();
    format!("{role}{name} {start} {end}{body}\n")
}
