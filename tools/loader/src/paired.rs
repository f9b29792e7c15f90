//! Files that two refusals apply to, each beside each later one.

use crate::kinds::Kind;
use model::columns::RESTORED;
use model::forms::{BLOCK, CALL, CAST, CLOSURE, LINK, PATH, TYPE_PATH};
use model::generate::Dice;
use model::sizes::{MOST_FILE_BYTES, MOST_LEVELS, MOST_NODES, NODE_CELLS};
use model::table::{self, NodeTable, ATTRIBUTES, DETAIL, FIRST, FORM, SECOND};

/// A call of this tree on two more: `path as Type`, which 9 can speak of, and a closure with a
/// written output over a plain Block, which 10 can.
fn with_more(tree: &NodeTable) -> NodeTable {
    let count = tree.count;
    let more = |number: u16| count + 1 + number;
    let mut cells = vec![CALL, 0, 0, 2, more(1), 0];
    for node in tree.cells.chunks(NODE_CELLS) {
        let moved = |&operand: &u16| if operand == 0 { 0 } else { operand + 1 };
        cells.extend(&node[..FIRST]);
        cells.extend(node[FIRST..=SECOND].iter().map(moved));
        cells.extend(&node[SECOND + 1..]);
    }
    cells.extend([LINK, 0, 0, more(3), more(2), 0]);
    cells.extend([LINK, 0, 0, more(6), 0, 0]);
    cells.extend([CAST, 0, 0, more(4), more(5), 0]);
    cells.extend([PATH, 0, 0, 0, 0, 200]);
    cells.extend([TYPE_PATH, 0, 1, 0, 0, 0]);
    cells.extend([CLOSURE, 0, 1, more(7), 0, 0]);
    cells.extend([BLOCK, 0, 0, 0, 0, 0]);
    NodeTable { context: tree.context, count: count + 8, cells }
}

/// A file, and what it is.
pub struct Made {
    pub file: Vec<u8>,
    pub what: String,
    /// The refusal that is meant, if one is.
    pub meant: Option<u16>,
}

/// Each refusal beside each that is not told before it, in the file of a tree; those that the
/// tree leaves no room for are left out.
pub fn refused_twice(kind: Kind, tree: &NodeTable, dice: &mut Dice) -> Vec<Made> {
    if usize::from(tree.count) + MOST_LEVELS + 9 > MOST_NODES {
        return Vec::new();
    }
    let tree = with_more(tree);
    let what = "no refusal".to_string();
    let mut found = vec![Made { file: kind.write(&tree), what, meant: None }];
    for (at, &first) in kind.refusals().iter().enumerate() {
        for &second in &kind.refusals()[at..] {
            let file = refused_by(kind, &tree, &[first, second], dice);
            let what = format!("{first} and {second}");
            found.push(Made { file, what, meant: Some(first) });
        }
    }
    found
}

/// The file of a tree that these refusals apply to.
fn refused_by(kind: Kind, tree: &NodeTable, refusals: &[u16], dice: &mut Dice) -> Vec<u8> {
    let is = |refusal: u16| refusals.contains(&refusal);
    let mut tree = if is(11) { tree.in_parens(MOST_LEVELS as u16) } else { tree.clone() };
    let nodes = tree.cells.len() / NODE_CELLS;
    // From the end: the Block, the closure, the type, the path, the cast, two links.
    let cell = |back: usize, cell: usize| NODE_CELLS * (nodes - 1 - back) + cell;
    if is(10) {
        tree.cells[cell(0, dice.pick(&[ATTRIBUTES, DETAIL]))] = 1;
    }
    if is(9) {
        tree.cells[cell(2, DETAIL)] = 0;
    }
    if is(8) {
        let [owner, closure, above] = [nodes - 4, nodes - 1, nodes + 1].map(|number| number as u16);
        // No distance is held for an operand that is not above its owner.
        tree.cells[cell(4, FIRST)] = match kind {
            Kind::Tree => dice.pick(&[1, above, owner]),
            Kind::Columns => dice.pick(&[above, u16::MAX, closure]),
        };
    }
    if is(7) {
        tree.cells[cell(5, FIRST)] = 0;
    }
    if is(6) {
        let wrong = dice.pick(&[(FORM, 57), (ATTRIBUTES, 3), (DETAIL, 2), (SECOND + 1, 1)]);
        tree.cells[cell(0, wrong.0)] = wrong.1;
    }
    if is(4) {
        tree.count = dice.pick(&[0, MOST_NODES as u16 + 1, u16::MAX]);
    }
    if is(3) {
        tree.context = dice.pick(&[4, 127, 128, u16::MAX]);
    }
    let mut numbers = kind.numbers(&tree);
    if is(RESTORED) {
        outside(&mut numbers, dice);
    }
    let mut file = table::write(&numbers);
    if is(5) {
        match dice.below(3) {
            0 => file.push(0),
            1 => drop(file.pop()),
            _ => *file.last_mut().expect("a file has bytes") = 0x80,
        }
    }
    if is(2) {
        let malformed: [&[u8]; 2] = [&[0x80, 0], &[0xFF, 0xFF, 0x7F]];
        file.splice(..1, dice.pick(&malformed).iter().copied());
    }
    if is(1) {
        file.resize(MOST_FILE_BYTES + 1 + dice.below(3), 0);
    }
    file
}

/// Makes one of the numbers that columns hold fall outside: a form below 0 or, of the third
/// node or a later one, above 65,535, or an operand above 65,535.
fn outside(held: &mut NodeTable, dice: &mut Dice) {
    let nodes = held.cells.len() / NODE_CELLS;
    let node = dice.below(nodes);
    match dice.below(4) {
        0 => held.cells[node] = u16::MAX,
        1 => held.cells[node.min(nodes - 3)..][..3].fill(u16::MAX - 1),
        operand => {
            held.cells[(operand + 1) * nodes + node] = u16::MAX - dice.below(node + 1) as u16
        }
    }
}
