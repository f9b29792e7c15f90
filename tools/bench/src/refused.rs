//! Refused files beside the accepted ones that they come from: instructions of a load.

use crate::measure;
use crate::sets::{Kind, Set};
use crate::sheets::Sheet;
use crate::views::{Table, A};
use model::forms::{CAST, CLOSURE, PATH, TYPE_PATH};
use model::sizes::{MOST_CELLS, NODE_CELLS};
use model::table::{self, ATTRIBUTES, FIRST};
use model::{accept, NodeTable};
use std::hint::black_box;
use tezhukor::boundary;

/// 0 stands for the accepted files.
const NUMBERS: [u16; 6] = [0, 6, 7, 8, 9, 10];

/// The sets of surveyors' size, and large sheets.
fn sets() -> Vec<(&'static str, Vec<NodeTable>)> {
    let small = Set::of(Kind::Surveyors).map(|(_, set)| (set.name, set.trees()));
    let large = (0..20).map(|index| Sheet::made(7, index, Sheet::large)).collect();
    small.chain([("large sheets", large)]).collect()
}

/// A line for each set.
pub fn print() {
    let mut table = Table {
        corner: "instructions of a load".to_string(),
        columns: vec!["files".to_string(), "nodes".to_string(), "accepted, a node".to_string()],
        lines: Vec::new(),
    };
    table.columns.extend(NUMBERS[1..].iter().map(|number| format!("refused by {number}")));
    for (at, (name, trees)) in sets().iter().enumerate() {
        let words = ["load-once".to_string(), at.to_string()];
        let figures =
            measure::instructions_of_calls(&measure::this(), &words, "loaded_once", NUMBERS.len());
        let nodes: u64 = trees.iter().map(|tree| u64::from(tree.count)).sum();
        let accepted = figures[0];
        let mut line = vec![trees.len().to_string(), nodes.to_string()];
        line.push(A::Node.shown(accepted / nodes as f64));
        line.extend(figures[1..].iter().map(|figure| format!("{:.2}", figure / accepted)));
        table.lines.push((name.to_string(), line));
    }
    table.print();
}

/// What valgrind looks at: the files of a set, accepted and then refused by each number.
pub fn once(set: usize) {
    let mut cells = vec![0; MOST_CELLS];
    let (_, trees) = &sets()[set];
    for number in NUMBERS {
        let files: Vec<Vec<u8>> =
            trees.iter().map(|tree| table::write(&broken(tree, number))).collect();
        loaded_once(&files, &mut cells, number);
    }
}

/// Loads each file. valgrind finds it by its name.
#[inline(never)]
#[no_mangle]
fn loaded_once(files: &[Vec<u8>], cells: &mut [u16], number: u16) {
    for file in files {
        let reply = black_box(boundary::load(black_box(file), cells));
        assert_eq!((reply >> 16) as u16, number);
    }
}

/// A tree that is refused by a number, found as late as can be. The one pass goes from the last
/// node to the first, and where it does not get through another goes from the first to the last,
/// which ends at once where it finds 6.
fn broken(tree: &NodeTable, number: u16) -> NodeTable {
    let mut cells = tree.cells.clone();
    let last = cells.len() - NODE_CELLS;
    match number {
        6 => cells[last + ATTRIBUTES] = 3,
        7 => cells = below(&[CAST, 0, 0, 2, 0, 0], cells),
        8 => cells.extend([PATH, 0, 0, 0, 0, 0]),
        9 => cells = below(&[CAST, 0, 0, 3, 2, 0, TYPE_PATH, 0, 0, 0, 0, 0], cells),
        10 => cells = below(&[CLOSURE, 0, 1, 2, 0, 0], cells),
        _ => {}
    }
    let count = (cells.len() / NODE_CELLS) as u16;
    let broken = NodeTable { context: tree.context, count, cells };
    assert_eq!(accept::refusal(&broken), number);
    broken
}

/// Nodes behind those above them, which hold the numbers of their operands already.
fn below(above: &[u16], mut cells: Vec<u16>) -> Vec<u16> {
    let moved = (above.len() / NODE_CELLS) as u16;
    for node in cells.chunks_mut(NODE_CELLS) {
        let operands = node[FIRST..FIRST + 2].iter_mut();
        operands.filter(|operand| **operand != 0).for_each(|operand| *operand += moved);
    }
    [above, &cells].concat()
}
