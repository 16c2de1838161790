//! Stands for the items of the crate that are not in the three files; values by RULES E7, E8 and M3 to M6.

pub type CowStr<'s> = std::borrow::Cow<'s, str>;

/// The discriminants are the numbers that events have (E8).
#[derive(Debug, Clone, Copy, PartialEq, Eq)]
pub enum Alignment {
    Unspecified = 0,
    Left = 1,
    Right = 2,
    Center = 3,
}

/// The discriminants are the numbers that events have (E7).
#[derive(Debug, Clone, Copy, PartialEq, Eq)]
pub enum OrderedListNumbering {
    Decimal = 1,
    AlphaLower = 2,
    AlphaUpper = 3,
    RomanLower = 4,
    RomanUpper = 5,
}

/// The discriminants are the numbers that events have (E7).
#[derive(Debug, Clone, Copy, PartialEq, Eq)]
pub enum OrderedListStyle {
    Period = 0,
    Paren = 1,
    ParenParen = 2,
}

impl OrderedListNumbering {
    /// The value of a number's text; block.rs hands over texts of the numbering only.
    pub fn parse_number(self, text: &str) -> u64 {
        match self {
            Self::Decimal => text.parse().expect("at most 19 digits"),
            Self::AlphaLower => u64::from(text.as_bytes()[0] - b'a') + 1,
            Self::AlphaUpper => u64::from(text.as_bytes()[0] - b'A') + 1,
            Self::RomanLower | Self::RomanUpper => roman(text.as_bytes()),
        }
    }
}

impl OrderedListStyle {
    /// The number's text within a marker of this style.
    pub fn number(self, marker: &str) -> &str {
        let front = usize::from(self == Self::ParenParen);
        &marker[front..marker.len() - 1]
    }
}

/// A digit smaller than its right neighbour is subtracted, others are added.
/// Digits to be subtracted are paid back by their neighbour only in the sum, hence signed.
fn roman(digits: &[u8]) -> u64 {
    let value = |d: &u8| -> i64 {
        match d.to_ascii_lowercase() {
            b'i' => 1,
            b'v' => 5,
            b'x' => 10,
            b'l' => 50,
            b'c' => 100,
            b'd' => 500,
            b'm' => 1000,
            other => panic!("byte {other} is no roman digit"),
        }
    };
    let mut sum = 0;
    for (i, digit) in digits.iter().enumerate() {
        let smaller = digits
            .get(i + 1)
            .is_some_and(|next| value(digit) < value(next));
        sum += if smaller { -value(digit) } else { value(digit) };
    }
    u64::try_from(sum).expect("the last digit outweighs what is subtracted")
}
