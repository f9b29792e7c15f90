//! What document 02's Papers 6 and 7 say of an edit of an open sheet, but for the rows: the
//! named node and all under it goes, a second tree stands in its place, and the result is
//! numbered from the root on.

use crate::accept;
use crate::forms::{Class, INDEX, LINK, PAREN};
use crate::generate::{Dice, Draft, Order};
use crate::sizes::{NODE_CELLS, REFUSAL_UNIT, ROW_CELLS};
use crate::table::{self, NodeTable};

/// What an edit or a preview is asked with: the sheet, whose table may have cells past its
/// last node, the number of its callee order, and its rows, which may hold anything; the node
/// that is named, and the second tree.
#[derive(Clone, Debug)]
pub struct Asked {
    pub sheet: NodeTable,
    pub order: u16,
    pub rows: Vec<u16>,
    pub node: u16,
    pub second: NodeTable,
}

impl Asked {
    /// The result, or the first refusal that applies, 12 left aside.
    ///
    /// # Panics
    ///
    /// If the edit breaks a rule that none can break: the documents name 18's reasons only.
    pub fn result(&self) -> Result<NodeTable, u16> {
        accepted(&self.sheet)?;
        accepted(&self.second)?;
        if !self.is_at_expression() {
            return Err(17);
        }
        let result = self.replaced();
        match accept::refusal(&result) {
            0 => Ok(result),
            4 | 10 | 11 => Err(18),
            refusal => panic!("an edit broke {refusal}: {self:?}"),
        }
    }

    /// The nodes that stay and stand inside an index, an argument or a Paren that does not
    /// contain the edited place, by their numbers in the sheet and in the result: if the
    /// sheet's rows were right, theirs change in nothing else.
    pub fn sheltered(&self, result: &NodeTable) -> Vec<[u16; 2]> {
        let above = self.above();
        let (mut sheltered, mut waiting) = (Vec::new(), vec![([1, 1], false)]);
        while let Some(([old, new], is_sheltered)) = waiting.pop() {
            if old == self.node {
                continue;
            }
            sheltered.extend(is_sheltered.then_some([old, new]));
            let (from, to) = (table::node(&self.sheet.cells, old), table::node(&result.cells, new));
            let shelter = match from.form {
                INDEX => Some(1),
                LINK | PAREN => Some(0),
                _ => None,
            };
            for side in (0..2).filter(|&side| from.operands[side] != 0) {
                let operand = from.operands[side];
                let is_shelter = shelter == Some(side) && !above[usize::from(operand)];
                waiting.push(([operand, to.operands[side]], is_sheltered || is_shelter));
            }
        }
        sheltered
    }

    /// Of each node whether the edited one is it or stands below it.
    fn above(&self) -> Vec<bool> {
        let mut above = vec![false; usize::from(self.sheet.count) + 1];
        for number in (1..=self.sheet.count).rev() {
            let operands = table::node(&self.sheet.cells, number).operands;
            let is_above = |operand: &u16| *operand != 0 && above[usize::from(*operand)];
            above[usize::from(number)] = number == self.node || operands.iter().any(is_above);
        }
        above
    }

    /// The lengths of the sheet's own buffers.
    pub fn lengths(&self) -> Lengths {
        Lengths { table: self.sheet.cells.len(), rows: self.rows.len() }
    }

    /// Whether an expression of the accepted sheet has the number.
    fn is_at_expression(&self) -> bool {
        let NodeTable { count, cells, .. } = &self.sheet;
        (1..=*count).contains(&self.node) && table::class(cells, self.node) == Class::Expression
    }

    /// The result, whether it is accepted or not: both trees side by side, and whoever had
    /// the named node for an operand has the second root. What is no longer reached goes.
    fn replaced(&self) -> NodeTable {
        let mut draft = Draft::of(&self.second);
        if self.node != 1 {
            let second = std::mem::replace(&mut draft, Draft::of(&self.sheet));
            let (named, root) = (usize::from(self.node) - 1, draft.nodes.len());
            for operand in draft.nodes.iter_mut().flat_map(|node| &mut node.operands).flatten() {
                if *operand == named {
                    *operand = root;
                }
            }
            for mut node in second.nodes {
                node.operands = node.operands.map(|operand| operand.map(|at| at + root));
                draft.nodes.push(node);
            }
        }
        draft.number(self.sheet.context, Order::Printing, &mut Dice::new(0, 0))
    }
}

/// What carrying an open sheet to our callee order must reply, with so many cells of rows
/// (document 02, Paper 10): the sheet's refusals, then 12 where the rows are too few for it.
pub fn carried(sheet: &NodeTable, rows: usize) -> u32 {
    let refusal = match accept::refusal(sheet) {
        0 if rows < Lengths::of(sheet.count).rows => 12,
        refusal => refusal,
    };
    match refusal {
        0 => CARRIED,
        refusal => REFUSAL_UNIT * u32::from(refusal),
    }
}

/// The reply of a carried sheet.
pub const CARRIED: u32 = 1;

/// How many cells are lent for a table and for its rows.
#[derive(Copy, Clone, PartialEq, Eq, Debug)]
pub struct Lengths {
    pub table: usize,
    pub rows: usize,
}

impl Lengths {
    /// Those that so many nodes need.
    pub fn of(count: u16) -> Lengths {
        let count = usize::from(count);
        Lengths { table: NODE_CELLS * count, rows: ROW_CELLS * count }
    }

    /// Whether so many nodes have room.
    pub fn hold(self, count: u16) -> bool {
        let needed = Lengths::of(count);
        self.table >= needed.table && self.rows >= needed.rows
    }
}

/// What must be replied and done for a result where it goes to each of these buffers: 12 is
/// told last.
pub fn lent(result: Result<NodeTable, u16>, buffers: &[Lengths]) -> Result<NodeTable, u16> {
    let result = result?;
    match buffers.iter().all(|lengths| lengths.hold(result.count)) {
        true => Ok(result),
        false => Err(12),
    }
}

fn accepted(table: &NodeTable) -> Result<(), u16> {
    match accept::refusal(table) {
        0 => Ok(()),
        refusal => Err(refusal),
    }
}

/// The reply for what is meant.
pub fn reply(meant: &Result<NodeTable, u16>) -> u32 {
    match meant {
        Ok(result) => result.count.into(),
        Err(refusal) => REFUSAL_UNIT * u32::from(*refusal),
    }
}

/// A buffer with an answer over its first cells; the others hold what they held.
pub fn over(answer: &[u16], mut buffer: Vec<u16>) -> Vec<u16> {
    buffer[..answer.len()].copy_from_slice(answer);
    buffer
}

#[cfg(test)]
mod tests {
    use super::*;
    use crate::generate::Family;

    /// A node with its own tree gives the sheet numbered from the root on, and node 1 gives
    /// the second tree so.
    #[test]
    fn own_trees() {
        for index in 0..2_000 {
            let sheet = Family::Mixed.tree(51, index);
            let node = Dice::new(52, index).between(1, sheet.count.into()) as u16;
            let second = below(&sheet, node);
            let mut asked = Asked { sheet, order: 1, rows: vec![], node, second };
            if asked.is_at_expression() {
                assert_eq!(asked.result(), Ok(asked.sheet.numbered()));
            }
            asked.node = 1;
            asked.second = Family::Mixed.tree(53, index);
            let meant = NodeTable { context: asked.sheet.context, ..asked.second.numbered() };
            assert_eq!(asked.result(), Ok(meant));
        }
    }

    /// A node and all under it, as a tree of its own in another context.
    fn below(table: &NodeTable, node: u16) -> NodeTable {
        let mut draft = Draft::of(table);
        draft.nodes.swap(0, usize::from(node) - 1);
        draft.number((table.context + 1) % 4, Order::Random, &mut Dice::new(54, node.into()))
    }
}
