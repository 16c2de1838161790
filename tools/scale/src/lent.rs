//! Lent buffers: parts of larger ones, canaries on both sides, a known pattern inside.

/// Cells on each side that no call may touch.
const MARGIN: usize = 64;

/// A byte or a word of a buffer.
pub trait Cell: Copy + Default + PartialEq {
    const CANARY: Self;

    /// What the cell of this index holds before a call: no two neighbours the same, so that moved cells are seen.
    fn found(index: usize) -> Self;
}

impl Cell for u8 {
    const CANARY: u8 = 0xc5;

    fn found(index: usize) -> u8 {
        (index as u8).wrapping_mul(7) ^ 0x5b
    }
}

impl Cell for u32 {
    const CANARY: u32 = 0xdead_c0de;

    fn found(index: usize) -> u32 {
        (index as u32).wrapping_mul(0x0101_0101) ^ 0xa5a5_5a5a
    }
}

#[derive(Default)]
pub struct Lent<T> {
    cells: Vec<T>,
    start: usize,
    len: usize,
}

impl<T: Cell> Lent<T> {
    /// A place for so many cells, `shift` cells off the usual one.
    fn place(&mut self, len: usize, shift: usize) -> &mut [T] {
        (self.start, self.len) = (MARGIN + shift, len);
        let (end, all) = (self.start + len, self.start + len + MARGIN);
        if self.cells.len() < all {
            self.cells.resize(all, T::CANARY);
        }
        self.cells[..self.start].fill(T::CANARY);
        self.cells[end..all].fill(T::CANARY);
        &mut self.cells[self.start..end]
    }

    /// Room for an answer, filled with the pattern.
    pub fn lend(&mut self, len: usize, shift: usize) {
        for (index, cell) in self.place(len, shift).iter_mut().enumerate() {
            *cell = T::found(index);
        }
    }

    /// An input.
    pub fn give(&mut self, input: &[T], shift: usize) {
        self.place(input.len(), shift).copy_from_slice(input);
    }

    pub fn part(&self) -> &[T] {
        &self.cells[self.start..self.start + self.len]
    }

    pub fn part_mut(&mut self) -> &mut [T] {
        &mut self.cells[self.start..self.start + self.len]
    }

    pub fn canaries_live(&self) -> bool {
        let end = self.start + self.len;
        let live = |cells: &[T]| cells.iter().all(|cell| *cell == T::CANARY);
        live(&self.cells[..self.start]) && live(&self.cells[end..end + MARGIN])
    }

    /// The first cell from `from` on that is not as it was found.
    pub fn not_as_found(&self, from: usize) -> Option<usize> {
        let rest = self.part().iter().enumerate().skip(from);
        rest.map(|(index, cell)| *cell == T::found(index))
            .position(|same| !same)
            .map(|place| from + place)
    }

    /// The first cell from `from` on that is not zero.
    pub fn not_zero(&self, from: usize) -> Option<usize> {
        let rest = &self.part()[from..];
        rest.iter()
            .position(|cell| *cell != T::default())
            .map(|place| from + place)
    }
}
