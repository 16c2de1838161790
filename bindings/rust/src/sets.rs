//! The five functions on sets of attributes over lent memory: all take the whole set, and tell how many elements they left, or bytes they wrote.
//! What each does to every lent word and byte is in include/tolphaneap_sets.h; how much to lend, in [`crate::room`].

use crate::lent::{moved, Moved};
use crate::raw_sets as raw;
use crate::refusal::Refused;

/// The kinds of elements.
pub const CLASS: u64 = 1;
pub const ID: u64 = 2;
pub const PAIR: u64 = 3;
pub const COMMENT: u64 = 4;
/// A class after the first, in what [`pairs`] leaves.
pub const FURTHER: u64 = 5;

/// Reads a set as elements of five words and pieces of two.
pub fn read(bytes: &[u8], elements: &mut [u64], pieces: &mut [u64]) -> Result<Moved, Refused> {
    moved(raw::read(bytes, elements, pieces))
}

/// Leaves the elements that make up the value of a key; none where it has no value.
pub fn value(
    bytes: &[u8],
    key: &[u8],
    elements: &mut [u64],
    pieces: &mut [u64],
) -> Result<Moved, Refused> {
    moved(raw::value(bytes, key, elements, pieces))
}

/// Leaves each key once, and each class after the first as [`FURTHER`], with one word of `places` and of `spare` lent for an element.
pub fn pairs(
    bytes: &[u8],
    elements: &mut [u64],
    pieces: &mut [u64],
    places: &mut [u64],
    spare: &mut [u64],
) -> Result<Moved, Refused> {
    moved(raw::pairs(bytes, elements, pieces, places, spare))
}

/// Writes the value of a key.
pub fn join(
    bytes: &[u8],
    key: &[u8],
    elements: &mut [u64],
    pieces: &mut [u64],
    out: &mut [u8],
) -> Result<Moved, Refused> {
    moved(raw::join(bytes, key, elements, pieces, out))
}

/// Writes the value of the element at a place, from 0 on.
pub fn text(
    bytes: &[u8],
    place: usize,
    elements: &mut [u64],
    pieces: &mut [u64],
    out: &mut [u8],
) -> Result<Moved, Refused> {
    moved(raw::text(bytes, place, elements, pieces, out))
}
