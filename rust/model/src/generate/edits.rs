//! Edits of open sheets: sheets, second trees, nodes and lengths of any kind, sheets near the
//! most nodes and the longest path, and each refusal together with each later one.

use super::dice::Dice;
use super::draft::{Draft, Label, Order, Slot};
use super::stem::{planted, Stem};
use super::Family;
use crate::edit::{Asked, Lengths};
use crate::forms::*;
use crate::sizes::{LAST_CONTEXT, MOST_LEVELS, MOST_NODES, NODE_CELLS};
use crate::table::{NodeTable, ATTRIBUTES, DETAIL, FIRST, FORM, SECOND, SYMBOL};
use crate::CalleeOrder;

/// An edit, and what a preview lends beside the sheet.
#[derive(Clone, Debug)]
pub struct Edit {
    pub asked: Asked,
    pub lent: Lengths,
}

impl Edit {
    /// With noise in all cells that are free, of which there are so many as those nodes
    /// need, or a few more.
    fn roomy(sheet: NodeTable, node: u16, second: NodeTable, room: u16, dice: &mut Dice) -> Edit {
        let room = Lengths::of(room);
        let spare = |needed| needed + dice.below(9);
        let [table, rows] = [room.table, room.rows].map(spare);
        let asked = Asked { sheet, order: order(dice), rows: Vec::new(), node, second };
        Edit { asked, lent: room }.lending(Lengths { table, rows }, room, dice)
    }

    /// With buffers near what the result needs, each with at most 8 cells more or less, or
    /// far more; now and then near what the sheet needs.
    fn near(sheet: NodeTable, node: u16, second: NodeTable, dice: &mut Dice) -> Edit {
        let count = sheet.count;
        let asked = Asked { sheet, order: order(dice), rows: Vec::new(), node, second };
        let result = asked.result().map_or(count, |result| result.count);
        let [own, lent] = [(); 2].map(|()| {
            let needed = Lengths::of(if dice.below(6) == 0 { count } else { result });
            Lengths { table: near(needed.table, dice), rows: near(needed.rows, dice) }
        });
        Edit { asked, lent }.lending(own, lent, dice)
    }

    /// The same with buffers of those lengths, in the sheet's own at least its nodes.
    fn lending(mut self, own: Lengths, lent: Lengths, dice: &mut Dice) -> Edit {
        let Asked { sheet, rows, .. } = &mut self.asked;
        let table = own.table.max(sheet.cells.len());
        sheet.cells.resize_with(table, || noise(dice));
        rows.resize_with(own.rows, || noise(dice));
        Edit { lent, ..self }
    }
}

/// The number of a callee order, each as often as the other.
pub fn order(dice: &mut Dice) -> u16 {
    dice.pick(&[0, 0, 0, 1, 2, 65_535])
}

/// A length about as long as is needed.
fn near(needed: usize, dice: &mut Dice) -> usize {
    match dice.below(8) {
        0 => needed + 300,
        1 => (needed + dice.below(9)).saturating_sub(8),
        2..=4 => needed,
        _ => needed + dice.below(9),
    }
}

/// Any number, mostly one that no row has.
fn noise(dice: &mut Dice) -> u16 {
    match dice.percent(30) {
        true => dice.below(16) as u16,
        false => dice.below(65_536) as u16,
    }
}

/// A tree of any family in any context, many with Calls.
fn tree(dice: &mut Dice, seed: u64, index: u64) -> NodeTable {
    let family = if dice.percent(30) { Family::Callees } else { Family::Mixed };
    let table = family.tree(seed, index);
    match dice.percent(50) {
        true => NodeTable { context: dice.below(4) as u16, ..table },
        false => table,
    }
}

/// Edits of a sheet with a second tree at every node of a small sheet and at some nodes of
/// a larger one, numbers that no node has among them.
pub fn edits(seed: u64, index: u64) -> Vec<Edit> {
    let dice = &mut Dice::new(seed, index);
    let (sheet, second) = (tree(dice, seed + 1, index), tree(dice, seed + 2, dice_index(index)));
    let count = sheet.count;
    let nodes: Vec<u16> = match count {
        1..=16 => (0..=count + 1).collect(),
        _ => {
            let ends = [1, count, dice.pick(&[0, count + 1, 4_096, 65_535])];
            ends.into_iter().chain((0..6).map(|_| dice.between(1, count.into()) as u16)).collect()
        }
    };
    let edit = |node| Edit::near(sheet.clone(), node, second.clone(), dice);
    nodes.into_iter().map(edit).collect()
}

/// The second tree's number: another family, in the end each with each.
fn dice_index(index: u64) -> u64 {
    index / 4 + 7 * (index % 4)
}

/// A call with so many nodes in all.
fn long_call(count: usize) -> Draft {
    let mut draft = Draft::new(Label::of(CALL));
    draft.put(Slot { owner: 0, place: 0 }, Label::of(PATH));
    let mut rest = Slot { owner: 0, place: 1 };
    while draft.nodes.len() + 2 <= count {
        let link = draft.put(rest, Label::of(LINK));
        draft.put(Slot { owner: link, place: 0 }, Label::of(PATH));
        rest = Slot { owner: link, place: 1 };
    }
    if draft.nodes.len() < count {
        let sign = Stem::one(UNARY, 0, 2).label;
        let last = draft.nodes.len() - 1;
        draft.nodes[last].label = sign;
        draft.put(Slot { owner: last, place: 0 }, Label::of(PATH));
    }
    draft
}

/// A path of so many nodes, of a form by turns with another.
fn long_path(levels: usize, turns: [Stem; 2]) -> Draft {
    let stems = turns.into_iter().cycle().take(levels - 1);
    planted(stems.chain([Stem::leaf(PATH, 0, 0)]))
}

/// Edits of sheets of about the most nodes, and with about the longest path, in which the
/// result has just as many, one more or one less.
pub fn large(seed: u64, index: u64) -> Edit {
    let dice = &mut Dice::new(seed, index);
    let by_count = dice.percent(50);
    let (own, all) = match by_count {
        true => (dice.pick(&[3, 40, 2_000, MOST_NODES - 1, MOST_NODES]), MOST_NODES),
        false => (dice.pick(&[1, 2, 64, MOST_LEVELS - 1, MOST_LEVELS]), MOST_LEVELS),
    };
    let turns = [
        [Stem::one(PAREN, 0, 0), Stem::one(UNARY, 0, 2)],
        [Stem::right(BINARY, 0, 1), Stem::one(GROUP, 0, 0)],
        [Stem::left(INDEX, 0, 0), Stem::one(FIELD, 0, 0)],
    ];
    let turns = dice.pick(&turns);
    let draft = |size| if by_count { long_call(size) } else { long_path(size, turns) };
    let context = |dice: &mut Dice| dice.below(4) as u16;
    let order = Order::any(dice);
    let sheet = draft(own).number(context(dice), order, dice);
    let node = dice.between(1, sheet.count.into()) as u16;
    // What stays, in nodes or in nodes of the path to the named one.
    let stays = match by_count {
        true => usize::from(sheet.count) - size(&sheet, node),
        false => depth(&sheet, node) - 1,
    };
    let wanted = (all + dice.pick(&[0, 1, 2])).saturating_sub(stays + 1);
    let second = draft(wanted.clamp(1, all)).number(context(dice), Order::any(dice), dice);
    Edit::near(sheet, node, second, dice)
}

/// How many nodes stand at a node and under it.
fn size(table: &NodeTable, node: u16) -> usize {
    let below = |operand: &u16| if *operand == 0 { 0 } else { size(table, *operand) };
    let operands = &table.cells[NODE_CELLS * (usize::from(node) - 1) + FIRST..][..2];
    // Lists are long, and go on at the second operand.
    match operands[1] {
        0 => 1 + below(&operands[0]),
        _ => {
            let (mut nodes, mut link) = (1 + below(&operands[0]), operands[1]);
            while link != 0 {
                let operands = &table.cells[NODE_CELLS * (usize::from(link) - 1) + FIRST..][..2];
                nodes += 1 + below(&operands[0]);
                link = operands[1];
            }
            nodes
        }
    }
}

/// How many nodes the path to a node holds, links not counted.
fn depth(table: &NodeTable, node: u16) -> usize {
    let mut depths = vec![0; usize::from(table.count) + 1];
    for (number, node) in (1..).zip(table.cells.chunks(NODE_CELLS)) {
        depths[number] += usize::from(node[FORM] != LINK);
        for operand in &node[FIRST..][..2] {
            depths[usize::from(*operand)] = depths[number];
        }
    }
    depths[usize::from(node)]
}

/// A run of edits of one sheet: the sheet, and for each edit a second tree. The node is
/// chosen when the sheet is known.
pub struct Run {
    pub sheet: NodeTable,
    seed: u64,
    index: u64,
}

impl Run {
    pub fn new(seed: u64, index: u64) -> Run {
        let sheet = tree(&mut Dice::new(seed, index), seed + 1, index);
        Run { sheet, seed, index }
    }

    /// The next edit of the sheet as it is now, in its callee order and with room for the
    /// result; `rows` are the sheet's, or noise now and then.
    pub fn edit(&self, step: u64, order: CalleeOrder, sheet: &NodeTable, rows: &[u16]) -> Edit {
        let number = self.index.wrapping_mul(1_000).wrapping_add(step);
        let dice = &mut Dice::new(self.seed + 3, number);
        let second = tree(dice, self.seed + 4, number);
        let node = match dice.below(40) {
            0 => dice.pick(&[0, sheet.count + 1, 65_535]),
            1 => 1,
            _ => dice.between(1, sheet.count.into()) as u16,
        };
        let room = sheet.count + second.count;
        let mut edit = Edit::roomy(sheet.clone(), node, second, room, dice);
        edit.asked.order = order.number();
        if dice.percent(50) {
            edit.asked.rows[..rows.len()].copy_from_slice(rows);
        }
        edit
    }
}

/// What can be wrong with an edit, by the order in which it is told: the refusal, and in how
/// many ways it can apply.
pub const FAULTS: [(u16, usize); 19] = [
    (3, 2),
    (4, 4),
    (6, 4),
    (7, 3),
    (8, 2),
    (9, 1),
    (10, 3),
    (11, 1),
    // Those of the second tree.
    (3, 2),
    (4, 4),
    (6, 4),
    (7, 3),
    (8, 2),
    (9, 1),
    (10, 3),
    (11, 1),
    (17, 5),
    (18, 3),
    (12, 4),
];

/// How many of the faults are a tree's.
pub const OF_A_TREE: usize = 8;

/// An edit with faults: their numbers in [`FAULTS`], and for each one of its ways.
pub fn faulty(faults: &[(usize, usize)], dice: &mut Dice) -> Edit {
    let [sheet, second] = [(); 2].map(|()| sound(dice));
    let mut edit = Edit::roomy(sheet, 9, second, 40, dice);
    // The last first, since what is told first can hide what is told later.
    for &(fault, way) in faults.iter().rev() {
        match fault {
            0..OF_A_TREE => wrong(&mut edit.asked.sheet, fault, way),
            _ if fault < 2 * OF_A_TREE => wrong(&mut edit.asked.second, fault, way),
            _ => wrong_edit(&mut edit, FAULTS[fault].0, way),
        }
    }
    edit
}

/// A sheet with faults, the first [`OF_A_TREE`] of [`FAULTS`], each in one of its ways.
pub fn faulty_sheet(faults: &[(usize, usize)], dice: &mut Dice) -> NodeTable {
    let mut sheet = sound(dice);
    faults.iter().rev().for_each(|&(fault, way)| wrong(&mut sheet, fault, way));
    sheet
}

/// A call of a closure with a written output, a cast and a sign, on whose nodes each fault
/// has a place of its own.
pub(super) fn sound(dice: &mut Dice) -> NodeTable {
    let nodes: [[u16; NODE_CELLS]; 13] = [
        [CALL, 0, 0, 2, 3, 0],
        [PATH, 0, 0, 0, 0, 1],
        [LINK, 0, 0, 4, 5, 0],
        [CLOSURE, 0, 1, 6, 0, 0],
        [LINK, 0, 0, 7, 8, 0],
        [BLOCK, 0, 0, 0, 0, 0],
        [CAST, 0, 0, 9, 10, 0],
        [LINK, 0, 0, 11, 13, 0],
        [PATH, 0, 0, 0, 0, 2],
        [TYPE_PATH, 0, 1, 0, 0, 0],
        [UNARY, 0, 2, 12, 0, 0],
        [PATH, 0, 0, 0, 0, 3],
        [LINK, 0, 0, 14, 0, 0],
    ];
    let leaf = [MACRO, 0, 0, 0, 0, 0];
    let cells = nodes.into_iter().chain([leaf]).flatten().collect();
    NodeTable { context: dice.below(4) as u16, count: 14, cells }
}

/// Makes one of a tree's faults, 3, 4 and 6 to 11, in one of its ways.
pub(super) fn wrong(table: &mut NodeTable, fault: usize, way: usize) {
    let mut set = |node: usize, cell: usize, number| {
        table.cells[NODE_CELLS * (node - 1) + cell] = number;
    };
    match (FAULTS[fault].0, way) {
        (3, _) => table.context = [LAST_CONTEXT + 1, 65_535][way],
        (4, 3) => table.cells.truncate(NODE_CELLS * usize::from(table.count) - 1),
        (4, _) => table.count = [0, MOST_NODES as u16 + 1, 65_535][way],
        (6, 0) => set(14, FORM, LINK + 1),
        (6, 1) => set(14, ATTRIBUTES, 3),
        (6, 2) => set(14, DETAIL, 3),
        (6, _) => set(14, SYMBOL, 1),
        // Without its operand, with a type for it, and with one where none may be.
        (7, 0) => set(11, FIRST, 0),
        (7, 1) => set(11, FIRST, 10),
        (7, _) => set(9, FIRST, 12),
        // An operand that is another's, and one above the count.
        (8, 0) => set(1, FIRST, 12),
        (8, _) => set(1, FIRST, table.count + 1),
        (9, _) => set(10, DETAIL, 0),
        (10, 0) => set(6, DETAIL, 1),
        (10, 1) => set(6, ATTRIBUTES, 1),
        (10, _) => set(6, FORM, PATH),
        _ => deepen(table, 2, MOST_LEVELS),
    }
}

/// Puts so many parentheses in place of a leaf, over another.
fn deepen(table: &mut NodeTable, leaf: usize, levels: usize) {
    table.cells.truncate(NODE_CELLS * usize::from(table.count));
    let below = table.count + levels as u16;
    let paren = |number| [PAREN, 0, 0, number + 1, 0, 0];
    table.cells[NODE_CELLS * (leaf - 1)..][..NODE_CELLS].copy_from_slice(&paren(table.count));
    table.cells.extend((table.count + 1..below).flat_map(paren));
    table.cells.extend([PATH, 0, 0, 0, 0, 0]);
    table.count = below;
}

/// Puts links with names behind the last one, until two such trees have too many nodes.
fn lengthen(table: &mut NodeTable) {
    table.cells.truncate(NODE_CELLS * usize::from(table.count));
    let mut last = 13;
    while usize::from(table.count) < MOST_NODES / 2 + 20 {
        let [link, name] = [table.count + 1, table.count + 2];
        table.cells[NODE_CELLS * (last - 1) + SECOND] = link;
        table.cells.extend([LINK, 0, 0, name, 0, 0]);
        table.cells.extend([PATH, 0, 0, 0, 0, 0]);
        (table.count, last) = (name, link.into());
    }
}

/// Makes one of the faults of the edit itself, or lends too little.
fn wrong_edit(edit: &mut Edit, refusal: u16, way: usize) {
    let Edit { asked, lent } = edit;
    let count = asked.sheet.count;
    let needed = Lengths::of(count);
    match (refusal, way) {
        (17, _) => asked.node = [0, count + 1, 65_535, 10, 3][way],
        // A closure's body, too many nodes, the longest path below another.
        (18, 0) => asked.node = 6,
        (18, 1) => [&mut asked.sheet, &mut asked.second].into_iter().for_each(lengthen),
        (18, _) => deepen(&mut asked.second, 12, MOST_LEVELS - 3),
        // The result has more nodes than the sheet.
        (12, 0) => asked.sheet.cells.truncate(needed.table),
        (12, 1) => asked.rows.truncate(needed.rows),
        (12, 2) => lent.table = needed.table,
        _ => lent.rows = needed.rows,
    }
}

#[cfg(test)]
mod tests {
    use super::*;

    /// Each fault in each way is told, and each before each later one.
    #[test]
    fn faults_are_told() {
        let told = |faults: &[(usize, usize)]| {
            let edit = faulty(faults, &mut Dice::new(61, 0));
            let lent = [edit.asked.lengths(), edit.lent];
            let meant = crate::edit::lent(edit.asked.result(), &lent);
            meant.map_err(|refusal| (refusal, FAULTS[faults[0].0].0))
        };
        let ways = |fault: usize| (0..FAULTS[fault].1).map(move |way| (fault, way));
        let mut told_first = 0;
        assert!(told(&[]).is_ok());
        for first in (0..FAULTS.len()).flat_map(ways) {
            for later in (first.0 + 1..FAULTS.len()).flat_map(ways) {
                for faults in [&[first][..], &[first, later]] {
                    let (told, meant) = told(faults).expect_err("a fault");
                    assert_eq!(told, meant, "{faults:?}");
                    told_first += 1;
                }
            }
        }
        assert!(told_first > 2_000, "{told_first}");
    }

    /// Large edits meet both sides of both bounds.
    #[test]
    fn bounds_are_met() {
        let (mut counts, mut levels, mut refused) = ([0; 2], [0; 2], 0);
        for index in 0..400 {
            let edit = large(62, index);
            match edit.asked.result() {
                Ok(result) => {
                    let longest = crate::verdict::longest_path(&result.cells);
                    counts[usize::from(usize::from(result.count) == MOST_NODES)] += 1;
                    levels[usize::from(longest == MOST_LEVELS)] += 1;
                }
                Err(18) => refused += 1,
                Err(17) => {}
                Err(refusal) => panic!("{refusal}"),
            }
        }
        assert!(
            counts[1] > 20 && levels[1] > 20 && refused > 40,
            "{counts:?} {levels:?} {refused}"
        );
    }
}
