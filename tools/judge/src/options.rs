//! The options of a command, each a name and a value.

use crate::listing::{Mode, MAX_TEXT};

/// What is wrong with the command line.
pub struct Usage(pub String);

/// The longest text that the program `pages` takes, and that the kept sample has.
pub const PAGES: usize = 65_536;
const SMALL: usize = 200;

pub struct Options<'a>(Vec<&'a str>);

impl<'a> Options<'a> {
    pub fn new(words: &[&'a str]) -> Self {
        Self(words.to_vec())
    }

    /// Takes an option out, if it is there.
    pub fn take(&mut self, name: &str) -> Result<Option<&'a str>, Usage> {
        let Some(place) = self.0.iter().position(|word| *word == name) else {
            return Ok(None);
        };
        if place + 1 == self.0.len() {
            return Err(Usage(format!("{name} has no value")));
        }
        self.0.remove(place);
        Ok(Some(self.0.remove(place)))
    }

    fn required(&mut self, name: &str) -> Result<&'a str, Usage> {
        self.take(name)?
            .ok_or_else(|| Usage(format!("{name} is missing")))
    }

    pub fn number(&mut self, name: &str) -> Result<u64, Usage> {
        let word = self.required(name)?;
        word.parse()
            .map_err(|_| Usage(format!("`{word}` is no number")))
    }

    /// Whether an option is there, which has one value only.
    pub fn is(&mut self, name: &str, value: &str) -> Result<bool, Usage> {
        match self.take(name)? {
            None => Ok(false),
            Some(word) if word == value => Ok(true),
            Some(word) => Err(Usage(format!("{name} takes `{value}`, not `{word}`"))),
        }
    }

    /// The longest text that is wanted.
    pub fn longest(&mut self) -> Result<usize, Usage> {
        match self.take("--size")? {
            None => Ok(usize::MAX),
            Some("pages") => Ok(PAGES),
            Some("trips") => Ok(MAX_TEXT),
            Some("small") => Ok(SMALL),
            Some(word) => Err(Usage(format!(
                "--size takes `pages`, `trips` or `small`, not `{word}`"
            ))),
        }
    }

    /// Whether raw code is read as the Rust does, and not by I7.
    pub fn rust_raw(&mut self) -> Result<bool, Usage> {
        match self.take("--raw")? {
            None | Some("page") => Ok(false),
            Some("rust") => Ok(true),
            Some(word) => Err(Usage(format!("--raw takes `rust` or `page`, not `{word}`"))),
        }
    }

    /// Which listing is wanted; the short one where nothing is said.
    pub fn listing_mode(&mut self) -> Result<Mode, Usage> {
        match self.take("--mode")? {
            None | Some("short") => Ok(Mode::Short),
            Some("full") => Ok(Mode::Full),
            Some(word) => Err(Usage(format!(
                "--mode takes `short` or `full`, not `{word}`"
            ))),
        }
    }

    pub fn alphabet(&mut self) -> Result<Vec<u8>, Usage> {
        let word = self.required("--alphabet")?;
        unescaped(word)
            .filter(|bytes| !bytes.is_empty())
            .ok_or_else(|| Usage(format!("`{word}` is no alphabet")))
    }

    /// All options must have been taken.
    pub fn end(self) -> Result<(), Usage> {
        match self.0.first() {
            None => Ok(()),
            Some(word) => Err(Usage(format!("`{word}` is not expected"))),
        }
    }
}

/// The bytes of a word, its escapes undone. None if an escape is unknown.
pub fn unescaped(word: &str) -> Option<Vec<u8>> {
    let mut bytes = Vec::new();
    let mut rest = word.as_bytes();
    while let [first, tail @ ..] = rest {
        let (byte, left) = match (first, tail) {
            (b'\\', [b'n', left @ ..]) => (b'\n', left),
            (b'\\', [b't', left @ ..]) => (b'\t', left),
            (b'\\', [b'r', left @ ..]) => (b'\r', left),
            (b'\\', [b'f', left @ ..]) => (b'\x0c', left),
            (b'\\', [b'\\', left @ ..]) => (b'\\', left),
            (b'\\', [b'x', high, low, left @ ..]) => {
                let digit = |b: &u8| char::from(*b).to_digit(16);
                ((digit(high)? * 16 + digit(low)?) as u8, left)
            }
            (b'\\', _) => return None,
            (byte, left) => (*byte, left),
        };
        bytes.push(byte);
        rest = left;
    }
    Some(bytes)
}
