//! Stems as nodes with numbers, laid one behind the other.

use super::draft::{Draft, DraftNode};
use super::stem::Stem;
use crate::sizes::NODE_CELLS;
use crate::table::{NodeTable, FIRST, SECOND, SYMBOL};

/// Stands for the number of the node that comes below a piece.
pub const BELOW: u16 = 255;

/// The nodes of a stem, its own first, with their operands by number among them, and
/// `BELOW` for the first further expression.
#[derive(Clone, Debug, Default)]
pub struct Piece {
    cells: Vec<u16>,
}

impl Piece {
    pub fn of(stem: Stem) -> Self {
        let mut draft = Draft::default();
        let hole = stem.plant(&mut draft, None).first().copied();
        let mut cells = Vec::new();
        for (at, &DraftNode { label, operands }) in draft.nodes.iter().enumerate() {
            cells.extend([label.form, label.attributes, label.detail]);
            for (place, operand) in operands.into_iter().enumerate() {
                let open = hole.is_some_and(|hole| (hole.owner, hole.place) == (at, place));
                let number = operand.map_or(0, |operand| operand as u16 + 1);
                cells.push(if open { BELOW } else { number });
            }
            cells.push(label.symbol);
        }
        Piece { cells }
    }

    /// The nodes of a stem, if there is one.
    pub fn of_some(stem: Option<Stem>) -> Self {
        stem.map(Piece::of).unwrap_or_default()
    }

    /// How many nodes there are.
    pub fn nodes(&self) -> usize {
        self.cells.len() / NODE_CELLS
    }

    /// The cells of its nodes.
    pub fn cells(&self) -> &[u16] {
        &self.cells
    }

    /// Puts the nodes behind those of a table.
    fn lay(&self, cells: &mut Vec<u16>) {
        let before = (cells.len() / NODE_CELLS) as u16;
        for node in self.cells.chunks_exact(NODE_CELLS) {
            cells.extend(&node[..FIRST]);
            cells.extend(node[FIRST..=SECOND].iter().map(|&operand| match operand {
                0 => 0,
                BELOW => before + self.nodes() as u16 + 1,
                operand => before + operand,
            }));
            cells.push(node[SYMBOL]);
        }
    }

    /// A tree of pieces, each below the one before.
    pub fn table(context: u16, pieces: &[&Piece]) -> NodeTable {
        let mut cells = Vec::with_capacity(pieces.iter().map(|piece| piece.cells.len()).sum());
        pieces.iter().for_each(|piece| piece.lay(&mut cells));
        NodeTable { context, count: (cells.len() / NODE_CELLS) as u16, cells }
    }
}
