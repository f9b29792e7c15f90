//! Trees with operators that are left open: any Binaries of any tree, above, below and beside
//! each other and in any order, and each refusal together with each later one.

use super::dice::Dice;
use super::edits::{order, sound, wrong, FAULTS as TREE_FAULTS, OF_A_TREE};
use crate::forms::{ASSIGN, BINARY, LINK, PATH};
use crate::open::{Asked, Entry};
use crate::sizes::{ENTRY_CELLS, LAST_BINARY, MOST_ENTRIES, NODE_CELLS};
use crate::table::{node, NodeTable, SECOND};

/// The Binaries of a tree, in any order.
pub fn binaries(tree: &NodeTable, dice: &mut Dice) -> Vec<u16> {
    let is_binary = |number: &u16| node(&tree.cells, *number).form == BINARY;
    let mut found: Vec<u16> = (1..=tree.count).filter(is_binary).collect();
    for at in (1..found.len()).rev() {
        found.swap(at, dice.below(at + 1));
    }
    found
}

/// Two ends, mostly not far from each other.
pub fn entry(node: u16, dice: &mut Dice) -> Entry {
    let last = usize::from(LAST_BINARY);
    let [lowest, highest] = match dice.below(8) {
        0 => [0, last],
        1 => [0, 1],
        2 => [2, 4],
        3 => [12, 17],
        _ => {
            let lowest = dice.below(last + 1);
            [lowest, dice.between(lowest, (lowest + 3).min(last))]
        }
    };
    Entry { node, lowest: lowest as u16, highest: highest as u16 }
}

/// Up to three entries of a tree, in either callee order; some cells more than are needed.
pub fn asked(tree: NodeTable, dice: &mut Dice) -> Asked {
    let nodes = binaries(&tree, dice);
    let most = nodes.len().min(MOST_ENTRIES);
    let least = usize::from(most > 0 && dice.percent(90));
    let entered = dice.between(least, most);
    let entries: Vec<Entry> = nodes[..entered].iter().map(|&node| entry(node, dice)).collect();
    let mut asked = Asked::new(tree, order(dice), &entries);
    asked.lent += dice.below(4);
    asked.entries.extend((0..dice.below(5)).map(|_| dice.below(65_536) as u16));
    asked
}

/// What can be wrong, by the order in which it is told: the refusal, and in how many ways it can
/// apply. Those of a tree stand before.
const OTHER_FAULTS: [(u16, usize); 4] = [(12, 3), (20, 3), (21, 7), (22, 4)];

/// How many faults there are.
pub const FAULTS: usize = OF_A_TREE + OTHER_FAULTS.len();

/// The refusal of a fault, and in how many ways it can apply.
pub fn fault(number: usize) -> (u16, usize) {
    match number.checked_sub(OF_A_TREE) {
        None => TREE_FAULTS[number],
        Some(other) => OTHER_FAULTS[other],
    }
}

/// Where the Binaries of [`faulty`] stand, and an Assign.
const BINARIES: [u16; 5] = [16, 17, 18, 19, 20];
const AN_ASSIGN: u16 = 21;

/// Three entries with faults: their numbers, and for each one of its ways.
pub fn faulty(faults: &[(usize, usize)], dice: &mut Dice) -> Asked {
    let entries: Vec<Entry> = BINARIES[..3].iter().map(|&node| entry(node, dice)).collect();
    let mut asked = Asked::new(with_binaries(sound(dice)), order(dice), &entries);
    // The last first, since what is told first can hide what is told later.
    for &(fault, way) in faults.iter().rev() {
        match fault {
            0..OF_A_TREE => wrong(&mut asked.table, fault, way),
            _ => wrong_entries(&mut asked, OTHER_FAULTS[fault - OF_A_TREE].0, way),
        }
    }
    asked
}

/// The same tree with five Binaries and an Assign in its last argument.
fn with_binaries(mut table: NodeTable) -> NodeTable {
    let last_link = 13;
    table.cells[NODE_CELLS * (last_link - 1) + SECOND] = 15;
    let nodes: [[u16; NODE_CELLS]; 14] = [
        [LINK, 0, 0, 16, 0, 0],
        [BINARY, 0, 0, 17, 18, 0],
        [BINARY, 0, 1, 19, 20, 0],
        [BINARY, 0, 2, 21, 22, 0],
        [BINARY, 0, 13, 23, 24, 0],
        [BINARY, 0, 18, 25, 26, 0],
        [ASSIGN, 0, 0, 27, 28, 0],
        [PATH, 0, 0, 0, 0, 0],
        [PATH, 0, 0, 0, 0, 0],
        [PATH, 0, 0, 0, 0, 0],
        [PATH, 0, 0, 0, 0, 0],
        [PATH, 0, 0, 0, 0, 0],
        [PATH, 0, 0, 0, 0, 0],
        [PATH, 0, 0, 0, 0, 0],
    ];
    table.cells.extend(nodes.into_iter().flatten());
    table.count += nodes.len() as u16;
    table
}

/// Makes one of the faults of entries, or lends too little.
fn wrong_entries(asked: &mut Asked, refusal: u16, way: usize) {
    let count = usize::from(asked.table.count);
    match (refusal, way) {
        (12, 0) => asked.lent = count.saturating_sub(1),
        (12, 1) => asked.lent = 0,
        (12, _) => {
            asked.entries.truncate(ENTRY_CELLS * usize::from(asked.entered) - 1);
        }
        (20, _) => {
            asked.entered = [4, 5, 300][way];
            asked.entries.resize_with(ENTRY_CELLS * usize::from(asked.entered), || 1);
        }
        // Absent, no expression, another form, an Assign, the first again and the last again.
        (21, 0) => asked.entries[0] = 0,
        (21, 1) => asked.entries[ENTRY_CELLS] = asked.table.count + 1,
        (21, 2) => asked.entries[2 * ENTRY_CELLS] = 65_535,
        (21, 3) => asked.entries[0] = 15,
        (21, 4) => asked.entries[2 * ENTRY_CELLS] = AN_ASSIGN,
        (21, 5) => asked.entries[ENTRY_CELLS] = BINARIES[0],
        (21, _) => asked.entries[0] = BINARIES[2],
        (22, 0) => asked.entries[1..3].copy_from_slice(&[5, 4]),
        (22, 1) => asked.entries[2 * ENTRY_CELLS + 2] = LAST_BINARY + 1,
        (22, 2) => asked.entries[ENTRY_CELLS + 1..][..2].copy_from_slice(&[65_535, 65_535]),
        _ => asked.entries[ENTRY_CELLS + 1..][..2].copy_from_slice(&[1, 0]),
    }
}

#[cfg(test)]
mod tests {
    use super::*;

    /// Each fault in each way is told, and each before each later one.
    #[test]
    fn faults_are_told() {
        let ways = |number: usize| (0..fault(number).1).map(move |way| (number, way));
        let told = |faults: &[(usize, usize)]| faulty(faults, &mut Dice::new(91, 0)).refusal();
        assert_eq!(told(&[]), 0);
        let mut met = 0;
        for first in (0..FAULTS).flat_map(ways) {
            assert_eq!(told(&[first]), fault(first.0).0, "{first:?}");
            for later in (first.0 + 1..FAULTS).flat_map(ways) {
                assert_eq!(told(&[first, later]), fault(first.0).0, "{first:?} {later:?}");
                met += 1;
            }
        }
        assert!(met > 500, "{met}");
    }
}
