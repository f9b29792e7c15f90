//! Rows as the crate's own files give them, with the feature `crate_rows`.

use model::NodeTable;

/// The crate's rows of an accepted table in the callee order with a number.
#[cfg(feature = "crate_rows")]
pub fn of(table: &NodeTable, order: u16) -> Option<Vec<u16>> {
    use model::sizes::NODE_CELLS;
    let cells = table.cells[..NODE_CELLS * usize::from(table.count)].to_vec();
    let order = model::CalleeOrder::numbered(order);
    Some(oracle::rows_of(&NodeTable { cells, ..*table }, order))
}

/// They are not at hand.
#[cfg(not(feature = "crate_rows"))]
pub fn of(_: &NodeTable, _: u16) -> Option<Vec<u16>> {
    None
}
