//! The rows that tezhukor_decide and tezhukor_decide_by_order write, beside those that the
//! crate gives while it prints, with our test of a callee or with its own.

use model::lent::Cell;
use model::sizes::ROW_CELLS;
use model::{table, NodeTable};
use oracle::Row;
use tezhukor::boundary::{self, questions};

/// Which function decides.
#[derive(Copy, Clone, Debug)]
pub enum Way {
    /// tezhukor_decide, which is in our callee order.
    Decide,
    /// tezhukor_decide_by_order, in the order with a number.
    ByOrder(u16),
}

/// The crate's callee order.
pub const CRATES: Way = Way::ByOrder(0);

/// What the function did to what it was lent.
pub struct Decided {
    reply: u16,
    rows: Vec<u16>,
}

impl Decided {
    /// Decides an accepted tree in one of document 01's contexts. The buffer has so many
    /// cells more than it needs.
    pub fn new(way: Way, context: u16, tree: &NodeTable, spare: usize) -> Self {
        let lent = ROW_CELLS * usize::from(tree.count) + spare;
        let mut rows: Vec<u16> = (0..lent).map(Cell::pattern).collect();
        let (count, table) = (tree.count, &tree.cells[..]);
        let reply = match way {
            Way::Decide => boundary::decide(context, count, table, &mut rows),
            Way::ByOrder(order) => {
                questions::decide_by_order(order, context, count, table, &mut rows)
            }
        };
        Decided { reply, rows }
    }

    /// What differs from the crate's rows, from node 1 on, or from what document
    /// 01 says of the other cells.
    pub fn differences(&self, tree: &NodeTable, theirs: &[Row]) -> Vec<String> {
        let count = usize::from(tree.count);
        assert_eq!(theirs.len(), count);
        let mut differences = Vec::new();
        if self.reply != 0 {
            differences.push(format!("reply {}, not 0", self.reply));
        }
        let (rows, behind_rows) = self.rows.split_at(ROW_CELLS * count);
        for ((node, ours), theirs) in (1..).zip(rows.chunks_exact(ROW_CELLS)).zip(theirs) {
            if ours != theirs.cells() {
                let class = table::class(&tree.cells, node);
                differences.push(format!("{ours:?}, not {theirs:?}, node {node}, {class:?}"));
            }
        }
        if !as_lent(behind_rows, ROW_CELLS * count) {
            differences.push(format!("{behind_rows:?} behind the rows"));
        }
        differences
    }
}

/// What differs where the tree goes in as a tree file, through tezhukor_load, and its
/// rows are decided in the crate's callee order in some contexts, each with its rows.
pub fn differences_of_file(tree: &NodeTable, theirs: &[(u16, Vec<Row>)]) -> Vec<String> {
    let mut cells = vec![0; tree.cells.len()];
    let reply = boundary::load(&table::write(tree), &mut cells);
    match boundary::done(reply).map(boundary::header) {
        Ok((context, count)) => {
            let loaded = NodeTable { context, count, cells };
            if loaded != *tree {
                return vec![format!("{loaded:?} is loaded")];
            }
            let differences = |(context, theirs): &(u16, Vec<Row>)| {
                Decided::new(CRATES, *context, &loaded, 0).differences(tree, theirs)
            };
            theirs.iter().flat_map(differences).collect()
        }
        Err(refusal) => vec![format!("refused by {}", refusal.number())],
    }
}

/// Whether the cells from a place on hold what they were lent with.
fn as_lent(cells: &[u16], from: usize) -> bool {
    (from..).zip(cells).all(|(at, &cell)| cell == Cell::pattern(at))
}
