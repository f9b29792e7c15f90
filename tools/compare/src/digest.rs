//! Digests of rows, by which the program `spines` tells whether all rows of a block of
//! right spines are the crate's.

use oracle::Row;

/// A prime below 2^46, so that no step passes 64 bits.
const PRIME: u64 = 70_368_744_177_643;
const FACTOR: u64 = 65_599;

/// What `digest.rt` of the crate `spines` computes, step by step.
#[derive(Default)]
pub struct Digest(u64);

impl Digest {
    /// The rows of all nodes of a tree, behind their number.
    pub fn add_rows(&mut self, rows: &[Row]) {
        self.add(rows.len() as u64);
        for row in rows {
            // No number of a row reaches 64, and flags do not reach 4,096.
            let [pair, precedence, previous, next, flags] = row.cells().map(u64::from);
            self.add((((pair * 64 + precedence) * 64 + previous) * 64 + next) * 4_096 + flags);
        }
    }

    fn add(&mut self, number: u64) {
        self.0 = (self.0 * FACTOR + number) % PRIME;
    }

    pub fn number(&self) -> u64 {
        self.0
    }
}
