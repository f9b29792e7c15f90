//! Buffers that are lent, with a pattern in every cell and on both sides, so that each
//! cell shows whether it was written to.

use crate::sizes::{CONTEXT_UNIT, NODE_CELLS, REFUSAL_UNIT};
use crate::table::NodeTable;

/// What loading a file must give where so many cells are lent for its table, by what is stated
/// of the file: 4, as soon as the header is in order, where they are too few for its count.
pub fn loaded(stated: Result<NodeTable, u16>, file: &[u8], lent: usize) -> Result<NodeTable, u16> {
    match stated {
        Err(..=4) => stated,
        _ if lent < NODE_CELLS * count(file) => Err(4),
        _ => stated,
    }
}

/// The count of a header that is in order: the context is one byte, the count one or two.
pub fn count(file: &[u8]) -> usize {
    let high = if file[1] < 0x80 { 0 } else { usize::from(file[2]) << 7 };
    usize::from(file[1] & 0x7F) | high
}

/// The reply to a file that is loaded, and the cells that are then stored.
pub fn told_loaded(meant: &Result<NodeTable, u16>) -> (u32, &[u16]) {
    match meant {
        Ok(table) => (u32::from(CONTEXT_UNIT * table.context + table.count), &table.cells),
        Err(refusal) => (REFUSAL_UNIT * u32::from(*refusal), &[]),
    }
}

/// The reply, and what is stored, where these bytes must be written and so many are lent: their
/// number, 12, or the refusal.
pub fn told(meant: &Result<Vec<u8>, u16>, lent: usize) -> (u32, &[u8]) {
    match meant {
        Ok(bytes) if bytes.len() <= lent => (bytes.len() as u32, bytes),
        Ok(_) => (12 * REFUSAL_UNIT, &[]),
        Err(refusal) => (REFUSAL_UNIT * u32::from(*refusal), &[]),
    }
}

/// Cells on each side of those that can be lent.
const SPARE: usize = 64;

/// How often all cells are looked at, and not only those near an answer.
const WHOLE: u64 = 4_096;

/// A buffer of cells, or of bytes, that can be lent again and again.
pub struct Lent<Of = u16> {
    cells: Vec<Of>,
    taken: u64,
}

/// What a buffer is made of.
pub trait Cell: Copy + PartialEq {
    /// What it holds when it is lent.
    fn pattern(at: usize) -> Self;
}

impl Cell for u16 {
    /// But for symbols no table, row or token list has such a number.
    fn pattern(at: usize) -> u16 {
        0xA000 | (at & 0x0FFF) as u16
    }
}

impl Cell for u8 {
    fn pattern(at: usize) -> u8 {
        (at * 37 + 11) as u8
    }
}

impl<Of: Cell> Lent<Of> {
    /// A buffer of which up to so many cells can be lent.
    pub fn new(most: usize) -> Lent<Of> {
        Lent { cells: (0..most + 2 * SPARE).map(Of::pattern).collect(), taken: 0 }
    }

    /// So many cells.
    pub fn lend(&mut self, length: usize) -> &mut [Of] {
        let most = self.cells.len() - 2 * SPARE;
        &mut self.cells[SPARE..][..most][..length]
    }

    /// Takes an answer of so many cells out of the buffer; none if another cell was
    /// written to. The first time and now and then all cells are looked at, else those
    /// near the answer.
    pub fn take(&mut self, length: usize) -> Option<Vec<Of>> {
        let answer = self.cells.get(SPARE..SPARE + length)?.to_vec();
        let is_whole = self.taken % WHOLE == 0;
        self.taken += 1;
        for (at, cell) in self.cells.iter_mut().enumerate().skip(SPARE).take(length) {
            *cell = Of::pattern(at);
        }
        let near = (SPARE + length + SPARE).min(self.cells.len());
        let looked = if is_whole { self.cells.len() } else { near };
        (0..looked).all(|at| self.cells[at] == Of::pattern(at)).then_some(answer)
    }
}
