//! What is written for a plain tree, with the outer pairs of the crate's own rows.

use model::codes::Token;
use model::sizes::{MOST_NODES, NODE_CELLS};
use model::written::{self, Written};
use model::NodeTable;
use oracle::direct::context_of_root;

/// Whether each node has an outer pair in the crate's rows, in the tree's context.
fn pairs(tree: &NodeTable) -> Vec<bool> {
    let rows = oracle::rows(&[context_of_root(tree.context)], tree.count, &tree.cells);
    rows[0].iter().map(|row| row.pair & 1 == 1).collect()
}

/// Writes a plain tree.
pub fn written(tree: &NodeTable) -> Written {
    Written::new(tree, &pairs(tree))
}

/// Its tokens with a comma after the last item of the lists with these last links.
pub fn with_commas(tree: &NodeTable, has_comma: &[u16]) -> Vec<Token> {
    Written::with_commas(tree, &pairs(tree), has_comma).tokens
}

/// What must be written for any node table with so many cells lent, or the refusal.
pub fn reply(tree: &NodeTable, lent: usize) -> Result<Written, u16> {
    written::reply(tree, lent, pairs)
}

/// Whether a table's numbers, written as a tree file, are loaded as that table or
/// refused for what is refused in it.
pub fn fits_a_file(tree: &NodeTable) -> bool {
    let count = usize::from(tree.count);
    !(1..=MOST_NODES).contains(&count) || tree.cells.len() == NODE_CELLS * count
}
