//! Nests of a table that double the crate's work.

use model::generate::{self, Draft, Label, Slot};
use model::sizes::NODE_CELLS;
use model::table::{NodeTable, ATTRIBUTES, DETAIL, FIRST, FORM};
use model::CalleeOrder;
use oracle::{keeping, Answers};

/// So many doubling nodes of a right spine take the crate a tenth of a second.
pub const FINISHED: u32 = 20;

/// The crate's answers, with rows in a callee order. Those of its scan_right are kept where it
/// would not come to an end soon.
pub fn answers(order: CalleeOrder, table: &NodeTable) -> Answers {
    let ask = || oracle::answers_by(order, table.context, table.count, &table.cells);
    if levels(table) <= FINISHED {
        ask()
    } else {
        keeping(ask)
    }
}

/// The doubling nodes of a right spine of an accepted table, the most there are.
fn levels(table: &NodeTable) -> u32 {
    let nodes: Vec<&[u16]> = table.cells.chunks(NODE_CELLS).collect();
    let label = |at: usize| Label::new(nodes[at][FORM], nodes[at][ATTRIBUTES], nodes[at][DETAIL]);
    let mut slots = vec![None; nodes.len()];
    for (owner, node) in nodes.iter().enumerate() {
        for place in 0..2 {
            if node[FIRST + place] != 0 {
                slots[usize::from(node[FIRST + place]) - 1] = Some(Slot { owner, place });
            }
        }
    }
    let mut draft = Draft::new(label(0));
    for (at, slot) in slots.iter().enumerate().skip(1) {
        draft.put(slot.expect("an owner"), label(at));
    }
    generate::levels(&draft)
}
