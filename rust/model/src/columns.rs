//! Rearranged files: document 02's Paper 11, stated number by number.
//!
//! Such a file has the header of a tree file and then all forms, all attributes, all
//! details, all first operands, all second operands and all symbols, in the same seven-bit
//! groups. Read as a tree file it is a header and numbers, [`table::read`]; here these
//! numbers are *held* for those of the nodes.

use crate::accept;
use crate::sizes::NODE_CELLS;
use crate::table::{self, NodeTable, FIRST, FORM, SECOND};

/// The refusal of columns that give no node table.
pub const RESTORED: u16 = 19;

/// A difference as it is held: 2 d when it is not negative, otherwise -2 d - 1.
fn held_difference(difference: i64) -> i64 {
    match difference {
        0.. => 2 * difference,
        _ => -2 * difference - 1,
    }
}

/// The difference that a number holds: the even ones are not negative.
fn difference(held: u16) -> i64 {
    match i64::from(held) {
        even if even % 2 == 0 => even / 2,
        odd => -(odd + 1) / 2,
    }
}

/// The numbers that are held for the cells of a table, in their order; the table's header.
///
/// # Panics
///
/// If a number cannot be held: of an operand that is not above its owner, or of forms that
/// lie too far apart.
pub fn rearranged(table: &NodeTable) -> NodeTable {
    let nodes = table.cells.len() / NODE_CELLS;
    let cell = |cell: usize, node: usize| i64::from(table.cells[NODE_CELLS * node + cell]);
    let held = |at: usize| {
        let (column, node) = (at / nodes, at % nodes);
        let own = cell(column, node);
        match column {
            FORM if node == 0 => held_difference(own),
            FORM => held_difference(own - cell(FORM, node - 1)),
            FIRST | SECOND if own != 0 => {
                let distance = own - (node as i64 + 1);
                assert!(distance > 0, "operand {own} of node {}", node + 1);
                distance
            }
            _ => own,
        }
    };
    let held = (0..NODE_CELLS * nodes).map(held);
    let cells = held.map(|number| u16::try_from(number).expect("a number of a file"));
    NodeTable { cells: cells.collect(), ..*table }
}

/// The first number, by column and then by node, for which a form or an operand falls outside
/// 0 to 65,535.
#[derive(Copy, Clone, PartialEq, Eq, Debug)]
pub struct Outside {
    /// The cell of a node that the column holds.
    pub column: usize,
    /// The node, from 1 on.
    pub node: usize,
}

/// The table for whose cells those numbers are held.
pub fn restored(held: &NodeTable) -> Result<NodeTable, Outside> {
    let nodes = held.cells.len() / NODE_CELLS;
    let mut cells = vec![0; held.cells.len()];
    for (column, numbers) in held.cells.chunks(nodes.max(1)).enumerate() {
        let mut form = 0;
        for (node, &number) in numbers.iter().enumerate() {
            let own = match column {
                FORM => {
                    form += difference(number);
                    form
                }
                FIRST | SECOND if number != 0 => node as i64 + 1 + i64::from(number),
                _ => i64::from(number),
            };
            let outside = |_| Outside { column, node: node + 1 };
            cells[NODE_CELLS * node + column] = u16::try_from(own).map_err(outside)?;
        }
    }
    Ok(NodeTable { cells, ..*held })
}

/// The rearranged file of a table, as [`rearranged`].
pub fn write(table: &NodeTable) -> Vec<u8> {
    table::write(&rearranged(table))
}

/// The table of an accepted rearranged file, or the first refusal that applies: 1 to 5, 19,
/// 6 to 11.
pub fn read(file: &[u8]) -> Result<NodeTable, u16> {
    let table = restored(&table::read(file)?).map_err(|_| RESTORED)?;
    match accept::refusal(&table) {
        0 => Ok(table),
        refusal => Err(refusal),
    }
}

#[cfg(test)]
mod tests {
    use super::*;
    use crate::generate::Family;

    #[test]
    fn differences_are_held_by_their_sign() {
        assert_eq!([0, 1, 2, -1, -2, -56].map(held_difference), [0, 2, 4, 1, 3, 111]);
        assert!((0..=u16::MAX).all(|held| held_difference(difference(held)) == held.into()));
    }

    /// A Block as a tree file is an Async as a rearranged one.
    #[test]
    fn the_bytes_do_not_tell() {
        let file = [0, 1, 6, 0, 0, 0, 0, 0];
        assert_eq!(table::read(&file).map(|table| table.cells[FORM]), Ok(6));
        assert_eq!(read(&file).map(|table| table.cells[FORM]), Ok(3));
    }

    /// `offset - (station - start)`: forms 5 26 5 26 26, operands 2 3 and 4 5.
    #[test]
    fn an_example() {
        let name = |symbol| [26, 0, 0, 0, 0, symbol];
        let nodes = [[5, 0, 1, 2, 3, 0], name(1), [5, 0, 1, 4, 5, 0], name(2), name(3)];
        let table = NodeTable { context: 0, count: 5, cells: nodes.concat() };
        let columns = [
            [10, 42, 41, 42, 0],
            [0, 0, 0, 0, 0],
            [1, 0, 1, 0, 0],
            [1, 0, 1, 0, 0],
            [2, 0, 2, 0, 0],
            [0, 1, 0, 2, 3],
        ];
        assert_eq!(write(&table), [&[0, 5][..], &columns.concat()].concat());
    }

    /// What is held is put back, and takes no more bytes.
    #[test]
    fn there_and_back() {
        for index in 0..2_000 {
            let tree = Family::Mixed.tree(51, index);
            let file = write(&tree);
            assert!(file.len() <= table::write(&tree).len());
            assert_eq!(read(&file), Ok(tree));
        }
    }
}
