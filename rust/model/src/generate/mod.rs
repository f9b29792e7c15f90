//! Makers of accepted trees.
//!
//! Every tree is named by a family, a seed and an index, and comes out the same
//! at every run. No maker asks prettyplease's files anything.

pub mod callees;
mod curb;
mod dice;
mod draft;
pub mod edits;
mod every_spine;
pub mod named;
mod nests;
pub mod open;
mod piece;
mod random;
mod small;
mod spines;
mod stem;

pub use curb::{levels, LONGEST_NEST};
pub use dice::Dice;
pub use draft::{Draft, Label, Order, Slot};
pub use every_spine::Spines;
pub use nests::{Nest, NESTS};
pub use piece::Piece;
pub use random::{random, Profile};
pub use small::SmallTrees;
pub use spines::{spine, ENDS, NEXTS};
pub use stem::{call_of, planted, Fill, Stem};

use crate::codes::{self, Token};
use crate::contexts;
use crate::forms::has_symbol;
use crate::sizes::{MOST_SYMBOL, NODE_CELLS};
use crate::table::{NodeTable, DETAIL, FORM, SYMBOL};

/// Families of trees.
#[derive(Copy, Clone, PartialEq, Eq, Debug)]
pub enum Family {
    /// All forms, attributes, details and contexts alike.
    Random,
    /// Random trees of the forms that scan_right has arms for.
    Scans,
    /// Right spines over all ends below all next operators.
    Spines,
    /// Plain trees without Structs in context 0.
    Plain,
    /// The four above in turn.
    Mixed,
    /// Plain trees with Structs, in the contexts in which such are written.
    Structs,
    /// Calls of Fields and Groups with attributes, beside and below all else.
    Callees,
}

impl Family {
    pub const ALL: [Family; 7] = [
        Family::Mixed,
        Family::Random,
        Family::Scans,
        Family::Spines,
        Family::Plain,
        Family::Structs,
        Family::Callees,
    ];

    /// The name on the command line.
    pub fn name(self) -> &'static str {
        match self {
            Family::Random => "random",
            Family::Scans => "scans",
            Family::Spines => "spines",
            Family::Plain => "plain",
            Family::Mixed => "mixed",
            Family::Structs => "structs",
            Family::Callees => "callees",
        }
    }

    /// The family with that name.
    pub fn named(name: &str) -> Option<Family> {
        Family::ALL.into_iter().find(|family| family.name() == name)
    }

    /// A tree of the family, with symbols where nodes may have them.
    pub fn tree(self, seed: u64, index: u64) -> NodeTable {
        let mut table = self.shape(seed, index);
        if self != Family::Mixed {
            symbols(&mut table, &mut Dice::new(!seed, index));
        }
        table
    }

    /// A tree of the family, all symbols 0.
    fn shape(self, seed: u64, index: u64) -> NodeTable {
        let dice = &mut Dice::new(seed, index);
        let (draft, context) = match self {
            Family::Random => (random(dice, Profile::All), dice.below(4)),
            Family::Scans => (random(dice, Profile::Scans), dice.below(4)),
            Family::Plain => (random(dice, Profile::Plain), 0),
            Family::Structs => (random(dice, Profile::Structs), dice.pick(&contexts::PLAIN).into()),
            Family::Callees => (random(dice, Profile::Callees), dice.below(4)),
            Family::Spines => return spine(dice, index),
            Family::Mixed => {
                const PARTS: [Family; 4] =
                    [Family::Random, Family::Scans, Family::Spines, Family::Plain];
                return PARTS[(index % 4) as usize].tree(seed, index / 4);
            }
        };
        draft.number(context as u16, Order::any(dice), dice)
    }
}

/// Symbols at the ends of each length that they have in a file.
pub const SYMBOLS: [u16; 7] = [0, 1, 127, 128, 16_383, 16_384, MOST_SYMBOL];

/// A symbol of any length.
pub fn symbol(dice: &mut Dice) -> u16 {
    let below = dice.pick(&[128, 16_384, usize::from(MOST_SYMBOL) + 1]);
    match dice.percent(40) {
        true => dice.pick(&SYMBOLS),
        false => dice.below(below) as u16,
    }
}

/// Gives symbols of every length to most nodes that may have one.
pub fn symbols(table: &mut NodeTable, dice: &mut Dice) {
    for node in table.cells.chunks_mut(NODE_CELLS) {
        if has_symbol(node[FORM], node[DETAIL]) && dice.percent(80) {
            node[SYMBOL] = symbol(dice);
        }
    }
}

/// Gives symbols of every length to most tokens that may have one.
pub fn token_symbols(tokens: &mut [Token], dice: &mut Dice) {
    for token in tokens.iter_mut().filter(|token| codes::has_symbol(token.code)) {
        if dice.percent(80) {
            token.symbol = symbol(dice);
        }
    }
}
