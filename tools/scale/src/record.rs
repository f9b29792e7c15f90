//! Tree files with the crate's own rows, for the program `recorded`: in the crate's callee order
//! in `rows`, and in ours, for trees with callees that the two tell apart, in `callees`.
//!
//! Records stand one behind the other, all numbers with the low byte first:
//!
//! - u16: how many cells are lent for rows
//! - u32: the length of the file
//! - u16: the reply, 0 or the refusal
//! - u16: the context, 0 when refused
//! - u16: the count, 0 when refused
//! - the bytes of the file
//! - when not refused, five cells of u16 a node: its row, zeros for a type or a link

use crate::damage::damage;
use crate::{chosen, files, nests};
use model::generate::{callees, Dice, Family, SmallTrees};
use model::sizes::{MOST_NODES, ROW_CELLS};
use model::{table, CalleeOrder, NodeTable};
use std::path::PathBuf;

const SEED: u64 = 11;

/// The cells of the buffers of the program `recorded`.
const LENT: u16 = 65_535;

/// Which trees are recorded: about a thousand of up to 2 nodes, ends below next
/// operators, and random ones of few and of many nodes.
fn trees() -> Vec<NodeTable> {
    let small = SmallTrees::every_label(2);
    let mut trees: Vec<NodeTable> =
        (0..small.len()).step_by(7).map(|index| small.tree(0, index)).collect();
    trees.extend((0..860).map(|index| Family::Spines.tree(SEED, 12 * index + index % 12)));
    for family in [Family::Random, Family::Scans, Family::Plain] {
        let some = (0..).map(|index| family.tree(SEED, index));
        trees.extend(some.filter(|tree| tree.count <= 60).take(300));
        let many = (0..).map(|index| family.tree(SEED + 1, index));
        trees.extend(many.filter(|tree| (200..=900).contains(&tree.count)).take(20));
        let most = (0..).map(|index| family.tree(SEED + 2, index));
        trees.extend(most.filter(|tree| usize::from(tree.count) == MOST_NODES).take(1));
    }
    for (context, tree) in (0..).zip(&mut trees) {
        if tree.count > 2 {
            tree.context = context % 4;
        }
    }
    trees
}

/// Records in a callee order, and how many have which reply.
struct Records {
    order: CalleeOrder,
    bytes: Vec<u8>,
    replies: [usize; 13],
}

/// Writes the records, and prints what `recorded` must print for them.
pub fn record() {
    let mut records = Records::new(CalleeOrder::Crate);
    let trees = trees();
    for tree in &trees {
        records.add(LENT, &table::write(tree));
    }
    // Damaged files, and buffers that are just long enough or one cell too short.
    for (index, tree) in (0..).zip(trees.iter().step_by(10)) {
        let file = damage(tree, &mut Dice::new(SEED, index)).file;
        if file.len() < 2_000 {
            records.add(LENT, &file);
        }
    }
    for tree in trees.iter().step_by(37) {
        let needed = ROW_CELLS as u16 * tree.count;
        records.add(needed, &table::write(tree));
        records.add(needed - 1, &table::write(tree));
    }
    for tree in chosen::trees() {
        records.add(LENT, &table::write(&tree));
    }
    let mut of_callees = Records::new(CalleeOrder::Ours);
    for tree in callees::trees() {
        for records in [&mut records, &mut of_callees] {
            records.add(LENT, &table::write(&tree));
        }
    }
    records.write("rows");
    of_callees.write("callees");
}

impl Records {
    fn new(order: CalleeOrder) -> Records {
        Records { order, bytes: Vec::new(), replies: [0; 13] }
    }

    fn write(&self, name: &str) {
        let path = PathBuf::from(env!("CARGO_MANIFEST_DIR")).join("../../crates/recorded/data");
        std::fs::write(path.join(name), &self.bytes).expect("crates/recorded/data is there");
        println!("{name}\naccepted {}", self.replies[0]);
        for (reply, files) in self.replies.iter().enumerate().skip(1).filter(|reply| *reply.1 > 0) {
            println!("refused {reply}: {files}");
        }
        println!("files {}, different 0", self.replies.iter().sum::<usize>());
    }

    fn add(&mut self, lent: u16, file: &[u8]) {
        let decided = match files::read(file) {
            Ok(tree) if usize::from(lent) < ROW_CELLS * usize::from(tree.count) => Err(12),
            found => found,
        };
        let (reply, context, count) = match &decided {
            Ok(tree) => (0, tree.context, tree.count),
            Err(refusal) => (*refusal, 0, 0),
        };
        self.replies[usize::from(reply)] += 1;
        let length = file.len();
        for number in [lent, length as u16, (length >> 16) as u16, reply, context, count] {
            self.bytes.extend(number.to_le_bytes());
        }
        self.bytes.extend(file);
        if let Ok(tree) = decided {
            let rows = nests::answers(self.order, &tree).rows();
            self.bytes.extend(rows.iter().flat_map(|cell| cell.to_le_bytes()));
        }
    }
}
