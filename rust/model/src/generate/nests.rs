//! Nests: forms by turns, each the right operand of the one before. The crate's
//! work on some of them doubles with each level.

use super::curb::levels;
use super::dice::Dice;
use super::draft::{Draft, Order};
use super::stem::{planted, Fill, Stem};
use crate::forms::{operator::*, *};
use crate::sizes::MOST_LEVELS;
use crate::table::NodeTable;

/// What stands above a nest, what its levels are by turns, and its end.
pub struct Nest {
    pub name: &'static str,
    pub above: Stem,
    pub turns: &'static [Stem],
    pub end: Stem,
}

const NAME: Stem = Stem::leaf(PATH, 0, 0);
const BARE: Stem = Stem::leaf(RANGE, 0, 0);
const RANGE_TO: Stem = Stem::new(RANGE, 0, 0, [Fill::Nothing, Fill::Hole]);
const GROUP_OF: Stem = Stem::one(GROUP, 0, 0);
const MINUS: Stem = Stem::one(UNARY, 0, 2);
const PLUS: Stem = Stem::right(BINARY, 0, ADD);

/// Five that double the crate's work, and one that does not.
pub const NESTS: [Nest; 6] = [
    Nest {
        name: "`..` by its end, left of `=`",
        above: Stem::left(ASSIGN, 0, 0),
        turns: &[RANGE_TO],
        end: NAME,
    },
    Nest {
        name: "`..` by its end, below a Field",
        above: Stem::one(FIELD, 0, 0),
        turns: &[RANGE_TO],
        end: BARE,
    },
    Nest {
        name: "`+`, Group by turns, below a Field",
        above: Stem::one(FIELD, 0, 0),
        turns: &[PLUS, GROUP_OF],
        end: BARE,
    },
    Nest {
        name: "`-`, Group, `+`, Group by turns, below a Field",
        above: Stem::one(FIELD, 0, 0),
        turns: &[MINUS, GROUP_OF, PLUS, GROUP_OF],
        end: BARE,
    },
    Nest {
        name: "`..`, `-` by turns, left of `+=`",
        above: Stem::left(BINARY, 0, ADD_ASSIGN),
        turns: &[RANGE_TO, MINUS],
        end: NAME,
    },
    Nest { name: "`..` by its end, below `-`", above: MINUS, turns: &[RANGE_TO], end: BARE },
];

impl Nest {
    /// The nest with so many levels between what is above it and its end.
    pub fn draft(&self, levels: usize) -> Draft {
        let turns = self.turns.iter().copied().cycle().take(levels);
        planted([self.above].into_iter().chain(turns).chain([self.end]))
    }

    /// The nest with so many levels, in a context.
    pub fn tree(&self, context: u16, levels: usize) -> NodeTable {
        self.draft(levels).number(context, Order::Printing, &mut Dice::new(0, 0))
    }

    /// The nest with as many levels as a path may hold.
    pub fn longest(&self, context: u16) -> NodeTable {
        self.tree(context, MOST_LEVELS - 1 - self.end.depth())
    }

    /// The nest with each number of levels that doubles the crate's work at most so
    /// often, the shortest first.
    pub fn doubling(&self, most: u32) -> impl Iterator<Item = NodeTable> + '_ {
        let fits = move |&length: &usize| levels(&self.draft(length)) <= most;
        (1..).take_while(fits).map(|length| self.tree(0, length))
    }
}
