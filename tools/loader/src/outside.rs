//! Refusal 19 in every column, place and direction.

use model::columns::{self, RESTORED};
use model::sizes::NODE_CELLS;
use model::table::{self, NodeTable, FIRST, FORM, SECOND};

/// The most that one number adds to a form, and the most that a form can be.
const STEP: u16 = 32_767;
const MOST: u16 = u16::MAX;

/// A file of columns, and what it is.
pub struct Outside {
    pub file: Vec<u8>,
    pub what: &'static str,
    /// 19, or none where it depends on what follows.
    pub meant: Option<u16>,
}

/// The rearranged files of an accepted tree in which the form or an operand of a node, each in
/// turn, is restored just below 0, far below it, just above 65,535, far above it, and just
/// within both. One number cannot take a form above 65,535: the one before helps, so this is
/// from the third node on.
pub fn files(tree: &NodeTable) -> Vec<Outside> {
    let held = columns::rearranged(tree);
    let nodes = usize::from(tree.count);
    let form = |node: usize| tree.cells[NODE_CELLS * node + FORM];
    let mut found = Vec::new();
    let mut with = |what, meant, changes: &[(usize, u16)]| {
        let mut changed = held.clone();
        changes.iter().for_each(|&(at, number)| changed.cells[at] = number);
        found.push(Outside { file: table::write(&changed), what, meant });
    };
    for node in 0..nodes {
        let before = if node == 0 { 0 } else { form(node - 1) };
        with("a form of -1", Some(RESTORED), &[(node, 2 * before + 1)]);
        with("a form far below 0", Some(RESTORED), &[(node, MOST)]);
        with("a form of 0", None, &[(node, if before == 0 { 0 } else { 2 * before - 1 })]);
        if node >= 2 {
            let start = form(node - 2);
            let up = |to_top: u16| [(node - 1, 2 * STEP), (node, 2 * (to_top - STEP))];
            if start > 1 {
                with("a form of 65,536", Some(RESTORED), &up(MOST - start + 1));
                with("a form far above 65,535", Some(RESTORED), &up(2 * STEP));
            }
            with("a form of 65,535", None, &up(MOST - start));
        }
        for operand in [FIRST, SECOND] {
            let (at, number) = (operand * nodes + node, node as u16 + 1);
            with("an operand of 65,536", Some(RESTORED), &[(at, MOST - number + 1)]);
            with("an operand far above 65,535", Some(RESTORED), &[(at, MOST)]);
            with("an operand of 65,535", None, &[(at, MOST - number)]);
        }
    }
    found
}
