//! Loading a file, and comparing it with the one before.

use crate::counts::Counts;
use crate::{files, library};
use model::lent::told_loaded;
use model::sizes::{MOST_NODES, NODE_CELLS, REFUSAL_UNIT};
use model::NodeTable;
use std::cmp::Ordering;

/// What the lent table holds before; another each time.
const OLD: u16 = 0xA5C3;

pub struct Tally {
    pub counts: Counts,
    /// Before, equal, after.
    orders: [u64; 3],
    /// The file before, with its table or its refusal.
    before: (Vec<u8>, Result<NodeTable, u16>),
    lent: Vec<u16>,
}

impl Tally {
    pub fn new() -> Tally {
        Tally {
            counts: Counts::default(),
            orders: [0; 3],
            before: (Vec::new(), Err(2)),
            lent: vec![0; NODE_CELLS * MOST_NODES + 1],
        }
    }

    /// Loads a file into a table with room for every count, into one that is just long enough
    /// and into one that is a cell too short, and compares it with the file before. The answer
    /// is the reply that is stated.
    pub fn load(&mut self, file: &[u8], what: &str) -> u16 {
        let stated = files::read(file);
        let all = NODE_CELLS * MOST_NODES;
        let mut same = self.loads(file, all, &stated);
        if let Ok(table) = &stated {
            let room = table.cells.len();
            same &= self.loads(file, room, &stated) && self.loads(file, room - 1, &Err(4));
        }
        same &= self.compares(file, &stated);
        let reply = self.counts.count(file, &stated, same, what);
        self.before = (file.to_vec(), stated);
        reply
    }

    /// The reply, and every cell of the lent table and one behind it.
    fn loads(&mut self, file: &[u8], room: usize, stated: &Result<NodeTable, u16>) -> bool {
        let old = OLD ^ self.counts.files as u16;
        self.lent[..=room].fill(old);
        let reply = library::load(file, &mut self.lent[..room]);
        let (meant, cells) = told_loaded(stated);
        let (new, kept) = self.lent[..=room].split_at(cells.len());
        reply == meant && new == cells && kept.iter().all(|&cell| cell == old)
    }

    /// How the file before stands to this one.
    fn compares(&mut self, file: &[u8], stated: &Result<NodeTable, u16>) -> bool {
        let meant = match (&self.before.1, stated) {
            (Err(refusal), _) | (Ok(_), Err(refusal)) => REFUSAL_UNIT * u32::from(*refusal),
            (Ok(one), Ok(two)) => {
                let order = match one.cmp(two) {
                    Ordering::Less => 0,
                    Ordering::Equal => 1,
                    Ordering::Greater => 2,
                };
                self.orders[order] += 1;
                order as u32
            }
        };
        library::compare(&self.before.0, file) == meant
    }

    /// Prints the counts; the answer is how many files differ.
    pub fn finish(self) -> u64 {
        let [before, equal, after] = self.orders;
        println!("accepted beside accepted: {before} before, {equal} equal, {after} after");
        self.counts.finish()
    }
}
