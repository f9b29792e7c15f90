//! The functions of the static library, on slices.
//!
//! Each is total: no argument is wrong, a refusal is a reply. On a refusal every
//! lent cell keeps its contents; otherwise cells past the answer keep theirs.

pub mod columns;
pub mod edits;
#[doc(hidden)] // for tools/fuzz, which asks with any numbers
pub mod library;
pub mod questions;

use crate::Refusal;
use model::sizes::{CONTEXT_UNIT, REFUSAL_UNIT};
use model::sizes::{PAIRS_UNIT, WRITTEN_UNIT};

/// What a reply of one number says: what was done, or the refusal.
pub fn done(reply: u32) -> Result<u16, Refusal> {
    // The library's contracts allow no refusals but those.
    match Refusal::numbered((reply / REFUSAL_UNIT) as u16) {
        None => Ok((reply % REFUSAL_UNIT) as u16),
        Some(refusal) => Err(refusal),
    }
}

/// The context and the count of a file that is loaded.
pub fn header(done: u16) -> (u16, u16) {
    (done / CONTEXT_UNIT, done % CONTEXT_UNIT)
}

/// Loads a tree file into a table of [`NODE_CELLS`](model::sizes::NODE_CELLS) cells a
/// node. What is done, without a refusal, is a [`header`].
pub fn load(file: &[u8], table: &mut [u16]) -> u32 {
    // SAFETY: pointers and lengths are those of slices, of which none overlaps
    // another; the function demands nothing else of its arguments.
    unsafe { library::tezhukor_load(file.as_ptr(), file.len(), table.as_mut_ptr(), table.len()) }
}

/// Saves the tree of a table as a tree file, its nodes numbered from the root on;
/// [`file_bytes`](model::sizes::file_bytes) are enough. What is done is the number of
/// bytes.
pub fn save(context: u16, count: u16, table: &[u16], file: &mut [u8]) -> u32 {
    // SAFETY: as above.
    unsafe {
        library::tezhukor_save(
            context,
            count,
            table.as_ptr(),
            table.len(),
            file.as_mut_ptr(),
            file.len(),
        )
    }
}

/// Compares two tree files. What is done is 0 where the first comes before the second,
/// 1 where they are equal, 2 where it comes after.
pub fn compare(first: &[u8], second: &[u8]) -> u32 {
    // SAFETY: pointers and lengths are those of slices, which are only read.
    unsafe { library::tezhukor_compare(first.as_ptr(), first.len(), second.as_ptr(), second.len()) }
}

/// Decides the rows of a table, [`ROW_CELLS`](model::sizes::ROW_CELLS) cells a node. The
/// reply is 0 or the refusal.
pub fn decide(context: u16, count: u16, table: &[u16], rows: &mut [u16]) -> u16 {
    // SAFETY: as above.
    unsafe {
        library::tezhukor_decide(
            context,
            count,
            table.as_ptr(),
            table.len(),
            rows.as_mut_ptr(),
            rows.len(),
        )
    }
}

/// Writes the tokens of a plain table in a context of [`PLAIN`](model::contexts::PLAIN),
/// [`TOKEN_CELLS`](model::sizes::TOKEN_CELLS) cells a token: its code and its symbol;
/// [`TOKEN_CELLS_PER_NODE`](model::sizes::TOKEN_CELLS_PER_NODE) cells a node must be lent.
/// The reply says how many they are, and how many pairs: see [`counted`].
pub fn write(context: u16, count: u16, table: &[u16], tokens: &mut [u16]) -> u64 {
    // SAFETY: as above.
    unsafe {
        library::tezhukor_write(
            context,
            count,
            table.as_ptr(),
            table.len(),
            tokens.as_mut_ptr(),
            tokens.len(),
        )
    }
}

/// What a reply of [`write()`] says.
#[derive(Copy, Clone, PartialEq, Eq, Debug)]
pub struct Counted {
    pub tokens: u16,
    /// Of those that were added: the rows whose outer pair is 1.
    pub pairs: u16,
}

/// How many tokens and pairs are written, or the refusal.
pub fn counted(reply: u64) -> Result<Counted, Refusal> {
    match Refusal::numbered((reply / WRITTEN_UNIT) as u16) {
        None => Ok(Counted {
            tokens: (reply % PAIRS_UNIT) as u16,
            pairs: (reply / PAIRS_UNIT % PAIRS_UNIT) as u16,
        }),
        Some(refusal) => Err(refusal),
    }
}

/// Reads a token list, [`TOKEN_CELLS`](model::sizes::TOKEN_CELLS) cells a token, in a context of
/// [`PLAIN`](model::contexts::PLAIN) into a table of at least
/// [`MOST_CELLS`](model::sizes::MOST_CELLS) cells. What is done is the number of nodes.
pub fn read(context: u16, tokens: &[u16], table: &mut [u16]) -> u32 {
    // SAFETY: as above.
    unsafe {
        library::tezhukor_read(
            context,
            tokens.as_ptr(),
            tokens.len(),
            table.as_mut_ptr(),
            table.len(),
        )
    }
}

/// How an operator binds: its level times [`LEVEL_UNIT`](model::sizes::LEVEL_UNIT), and
/// its lean, 0 left, 1 right, 2 neither; [`NO_OPERATOR`](model::sizes::NO_OPERATOR) for a
/// number that is no operator's.
pub fn binding(operator: u16) -> u16 {
    // SAFETY: the function demands nothing of its argument.
    unsafe { library::tezhukor_binding(operator) }
}
