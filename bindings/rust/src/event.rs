//! Events with types in place of words.

use crate::room::EVENT_WORDS;
use std::ops::Range;

#[derive(Debug, Clone, Copy, PartialEq, Eq, Hash)]
pub enum Bullet {
    Dash,
    Star,
    Plus,
}

#[derive(Debug, Clone, Copy, PartialEq, Eq, Hash)]
pub enum Numbering {
    Decimal,
    AlphaLower,
    AlphaUpper,
    RomanLower,
    RomanUpper,
}

/// What stands around an item's number: `1.`, `1)` or `(1)`.
#[derive(Debug, Clone, Copy, PartialEq, Eq, Hash)]
pub enum Style {
    Period,
    Paren,
    ParenParen,
}

#[derive(Debug, Clone, Copy, PartialEq, Eq, Hash)]
pub enum Alignment {
    None,
    Left,
    Right,
    Centre,
}

#[derive(Debug, Clone, Copy, PartialEq, Eq, Hash)]
pub enum Atom {
    Blankline,
    Attributes,
    ThematicBreak,
}

/// A block, with what its Enter and Exit say of it. Ranges and positions are bytes of the text.
#[derive(Debug, Clone, PartialEq, Eq, Hash)]
pub enum Node {
    Document,
    Blockquote,
    Div {
        class: Range<usize>,
    },
    Unordered {
        tight: bool,
        bullet: Bullet,
    },
    Ordered {
        tight: bool,
        numbering: Numbering,
        style: Style,
        start: u64,
    },
    TaskList {
        tight: bool,
        bullet: Bullet,
    },
    DescriptionList {
        tight: bool,
    },
    Item,
    TaskItem {
        checked: bool,
    },
    DescriptionItem,
    Footnote {
        label: Range<usize>,
    },
    Table,
    TableRow {
        head: bool,
    },
    Section {
        heading: usize,
    },
    Paragraph,
    Heading {
        level: u16,
        has_section: bool,
        position: usize,
    },
    DescriptionTerm,
    TableCell {
        alignment: Alignment,
    },
    Caption,
    LinkDefinition {
        label: Range<usize>,
    },
    CodeBlock {
        spec: Range<usize>,
    },
}

/// One step through a page, with its span of the text.
#[derive(Debug, Clone, PartialEq, Eq, Hash)]
pub enum Event {
    Enter(Node, Range<usize>),
    Exit(Node, Range<usize>),
    /// Text to be read as inline content.
    Inline(Range<usize>),
    Atom(Atom, Range<usize>),
}

fn flag(word: u32) -> Option<bool> {
    match word {
        0 => Some(false),
        1 => Some(true),
        _ => None,
    }
}

fn bullet(word: u32) -> Option<Bullet> {
    match u8::try_from(word).ok()? {
        b'-' => Some(Bullet::Dash),
        b'*' => Some(Bullet::Star),
        b'+' => Some(Bullet::Plus),
        _ => None,
    }
}

fn numbering(number: u32) -> Option<Numbering> {
    match number {
        1 => Some(Numbering::Decimal),
        2 => Some(Numbering::AlphaLower),
        3 => Some(Numbering::AlphaUpper),
        4 => Some(Numbering::RomanLower),
        5 => Some(Numbering::RomanUpper),
        _ => None,
    }
}

fn style(number: u32) -> Option<Style> {
    match number {
        0 => Some(Style::Period),
        1 => Some(Style::Paren),
        2 => Some(Style::ParenParen),
        _ => None,
    }
}

fn alignment(word: u32) -> Option<Alignment> {
    match word {
        0 => Some(Alignment::None),
        1 => Some(Alignment::Left),
        2 => Some(Alignment::Right),
        3 => Some(Alignment::Centre),
        _ => None,
    }
}

fn atom(number: u32) -> Option<Atom> {
    match number {
        1 => Some(Atom::Blankline),
        2 => Some(Atom::Attributes),
        3 => Some(Atom::ThematicBreak),
        _ => None,
    }
}

fn node(number: u32, [a, b, c, d]: [u32; 4]) -> Option<Node> {
    let range = a as usize..b as usize;
    Some(match number {
        1 => Node::Document,
        2 => Node::Blockquote,
        3 => Node::Div { class: range },
        4 => Node::Unordered {
            tight: flag(a)?,
            bullet: bullet(b)?,
        },
        5 => Node::Ordered {
            tight: flag(a)?,
            numbering: numbering(b / 4)?,
            style: style(b % 4)?,
            start: u64::from(c) | u64::from(d) << 32,
        },
        6 => Node::TaskList {
            tight: flag(a)?,
            bullet: bullet(b)?,
        },
        7 => Node::DescriptionList { tight: flag(a)? },
        8 => Node::Item,
        9 => Node::TaskItem { checked: flag(a)? },
        10 => Node::DescriptionItem,
        11 => Node::Footnote { label: range },
        12 => Node::Table,
        13 => Node::TableRow { head: flag(a)? },
        14 => Node::Section {
            heading: a as usize,
        },
        15 => Node::Paragraph,
        16 => Node::Heading {
            level: u16::try_from(a).ok()?,
            has_section: flag(b)?,
            position: c as usize,
        },
        17 => Node::DescriptionTerm,
        18 => Node::TableCell {
            alignment: alignment(a)?,
        },
        19 => Node::Caption,
        20 => Node::LinkDefinition { label: range },
        21 => Node::CodeBlock { spec: range },
        _ => return None,
    })
}

impl Event {
    /// The event of eight words; none for a Stale event and for words that name no event. Only `write` and `list` judge words.
    pub fn of(words: &[u32; EVENT_WORDS]) -> Option<Self> {
        let [role, number, start, end, body @ ..] = *words;
        let span = start as usize..end as usize;
        match role {
            1 => Some(Self::Enter(node(number, body)?, span)),
            2 => Some(Self::Exit(node(number, body)?, span)),
            3 => Some(Self::Inline(span)),
            4 => Some(Self::Atom(atom(number)?, span)),
            _ => None,
        }
    }

    /// Where it stands in the text.
    pub fn span(&self) -> Range<usize> {
        let (Self::Enter(_, span) | Self::Exit(_, span) | Self::Inline(span) | Self::Atom(_, span)) =
            self;
        span.clone()
    }
}

/// The events in words, eight each: all that a parse or a read leaves, without Stale ones.
#[derive(Debug, Clone)]
pub struct Events<'w> {
    left: &'w [u32],
}

impl<'w> Events<'w> {
    pub fn new(words: &'w [u32]) -> Self {
        Self { left: words }
    }
}

impl Iterator for Events<'_> {
    type Item = Event;

    fn next(&mut self) -> Option<Event> {
        while let Some((words, left)) = self.left.split_first_chunk() {
            self.left = left;
            if let Some(event) = Event::of(words) {
                return Some(event);
            }
        }
        None
    }
}
