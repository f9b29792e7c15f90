//! Files rearranged and put back, beside the model: reply, every byte and every cell.

use crate::counts::Counts;
use crate::kinds::Kind;
use crate::library;
use model::lent::{self, told_loaded, Lent};
use model::sizes::{file_bytes, MOST_CELLS, MOST_FILE_BYTES, MOST_NODES, NODE_CELLS, REFUSAL_UNIT};
use model::NodeTable;

/// So many bytes more and less than are written are lent.
const NEAR: usize = 8;

/// How often every length near that is lent, and not only three of them.
const ALL_LENGTHS: u64 = 64;

/// Files of one kind, made to the other.
pub struct Rearranged {
    kind: Kind,
    pub counts: Counts,
    /// How many lengths of a buffer were refused by 12.
    too_short: u64,
    /// How many bytes the accepted files have, and how many they are made to.
    bytes: [u64; 2],
    longer: u64,
    lent: Lent<u8>,
    table: Lent<u16>,
}

impl Rearranged {
    pub fn new(kind: Kind) -> Rearranged {
        Rearranged {
            kind,
            counts: Counts::default(),
            too_short: 0,
            bytes: [0; 2],
            longer: 0,
            lent: Lent::new(MOST_FILE_BYTES + 1),
            table: Lent::new(MOST_CELLS + 1),
        }
    }

    pub fn kind(&self) -> Kind {
        self.kind
    }

    /// Makes a file to the other kind with buffers about as long as that is, and back again
    /// where it is accepted; loads it if it is rearranged. The answer is the reply that is
    /// stated.
    pub fn file(&mut self, file: &[u8], what: &str) -> u16 {
        let stated = self.kind.read(file);
        let is_same = match &stated {
            Err(refusal) => {
                let rooms = [0, file.len().min(MOST_FILE_BYTES), MOST_FILE_BYTES];
                let refused =
                    |room| self.makes(file, room, REFUSAL_UNIT * u32::from(*refusal), &[]);
                rooms.map(refused) == [true; 3] && self.loads(file, &stated)
            }
            Ok(table) => self.accepted(file, table) && self.loads(file, &stated),
        };
        self.counts.count(file, &stated, is_same, what)
    }

    fn accepted(&mut self, file: &[u8], table: &NodeTable) -> bool {
        let made = self.other().write(table);
        let length = made.len();
        self.bytes[0] += file.len() as u64;
        self.bytes[1] += length as u64;
        // A rearranged file is no longer than its tree file.
        let [columns, tree] = match self.kind {
            Kind::Tree => [length, file.len()],
            Kind::Columns => [file.len(), length],
        };
        self.longer += u64::from(columns > tree);
        let near = 1 + self.counts.files as usize % NEAR;
        let rooms = match self.counts.files % ALL_LENGTHS {
            0 => (length.saturating_sub(NEAR)..=length + NEAR).chain([0]).collect(),
            _ => vec![length, length.saturating_sub(near), length + near],
        };
        rooms.into_iter().all(|room| match room < length {
            true => {
                self.too_short += 1;
                self.makes(file, room, 12 * REFUSAL_UNIT, &[])
            }
            false => self.makes(file, room, length as u32, &made),
        }) && self.is_put_back(file, &made)
    }

    fn other(&self) -> Kind {
        match self.kind {
            Kind::Tree => Kind::Columns,
            Kind::Columns => Kind::Tree,
        }
    }

    /// The reply, and every byte that is lent.
    fn makes(&mut self, file: &[u8], room: usize, reply: u32, made: &[u8]) -> bool {
        let lent = self.lent.lend(room);
        let told = match self.kind {
            Kind::Tree => library::to_columns(file, lent),
            Kind::Columns => library::from_columns(file, lent),
        };
        self.lent.take(made.len()).as_deref() == Some(made) && told == reply
    }

    /// What is made of an accepted file gives its own bytes again.
    fn is_put_back(&mut self, file: &[u8], made: &[u8]) -> bool {
        let mut back = vec![0; file_bytes(MOST_NODES)];
        let length = match self.kind {
            Kind::Tree => library::from_columns(made, &mut back),
            Kind::Columns => library::to_columns(made, &mut back),
        };
        back.get(..length as usize) == Some(file)
    }

    /// Loads a rearranged file with room for every table, with just enough and with one cell
    /// less, which is 4 as soon as the header is in order.
    fn loads(&mut self, file: &[u8], stated: &Result<NodeTable, u16>) -> bool {
        if self.kind == Kind::Tree {
            return true;
        }
        let count = if matches!(stated, Err(..=4)) { 0 } else { lent::count(file) };
        let (needed, too_short) = (NODE_CELLS * count, Err(4));
        let mut is_loaded = |room: usize| {
            let meant = if room < needed { &too_short } else { stated };
            let told = library::load_columns(file, self.table.lend(room));
            let (reply, cells) = told_loaded(meant);
            self.table.take(cells.len()).as_deref() == Some(cells) && told == reply
        };
        is_loaded(MOST_CELLS) && is_loaded(needed) && is_loaded(needed.saturating_sub(1))
    }

    /// Prints the counts; the answer is how many files differ.
    pub fn finish(self) -> u64 {
        match self.kind {
            Kind::Tree => println!("tree files rearranged:"),
            Kind::Columns => println!("rearranged files put back and loaded:"),
        }
        let [before, after] = self.bytes;
        println!("buffers refused by 12: {}", self.too_short);
        println!(
            "accepted: {before} bytes, made to {after}; rearranged files longer than their tree \
             files: {}",
            self.longer
        );
        self.counts.finish()
    }
}
