//! Trees that are recorded because scan_right tells them apart: right spines of one,
//! two and three forms, nests, and the one tree for which an operand must be asked
//! again.

use crate::nests::FINISHED;
use model::forms::{operator::*, *};
use model::generate::{call_of, planted, Dice, Draft, Fill, Label, Order, Spines, Stem, NESTS};
use model::NodeTable;

const NEXTS: [Option<Stem>; 6] = [
    None,
    Some(Stem::left(ASSIGN, 0, 0)),
    Some(Stem::left(BINARY, 0, AND)),
    Some(Stem::left(BINARY, 0, ADD)),
    Some(Stem::one(FIELD, 0, 0)),
    Some(Stem::left(BINARY, 0, LT)),
];

const FORMS: [Stem; 3] = [
    Stem::one(UNARY, 0, 2),
    Stem::new(RANGE, 0, 0, [Fill::Nothing, Fill::Hole]),
    Stem::one(LET, 0, 0),
];

const ENDS: [Stem; 2] = [Stem::leaf(PATH, 0, 0), Stem::leaf(RANGE, 0, 0)];

/// The sets of spines, each whole.
fn spines() -> [Spines; 5] {
    let (nexts, ends) = (NEXTS.to_vec(), ENDS.to_vec());
    [
        // One form for each kind, all next operators.
        Spines::with_few_ends(1),
        // All forms.
        Spines { nexts: nexts.clone(), ends: ends.clone(), ..Spines::every(1) },
        // All ends.
        Spines { nexts: nexts.clone(), forms: FORMS.to_vec(), ..Spines::every(1) },
        Spines { nexts: nexts.clone(), ends: ends.clone(), ..Spines::with_few_ends(2) },
        Spines { nexts: nexts[..5].to_vec(), ends, ..Spines::over_arms(3) },
    ]
}

/// `a == Group(let _ = -Group(b as T))`: the right precedence of the inner Group does not
/// follow from its scan.
fn asked_again() -> Draft {
    planted([
        Stem::right(BINARY, 0, EQ),
        Stem::one(GROUP, 0, 0),
        Stem::one(LET, 0, 0),
        Stem::one(UNARY, 0, 2),
        Stem::one(GROUP, 0, 0),
        Stem::cast(0, Label::of(TYPE_PATH)).named(),
    ])
}

/// All of them, spines as arguments of as few calls as hold them.
pub fn trees() -> Vec<NodeTable> {
    let mut trees = vec![numbered(&asked_again())];
    trees.extend(NESTS.iter().flat_map(|nest| nest.doubling(FINISHED)));
    trees.extend(NESTS.iter().flat_map(|nest| (0..4).map(|context| nest.longest(context))));
    for spines in spines() {
        let mut left = (0..spines.len()).map(|index| spines.stems(index)).peekable();
        while left.peek().is_some() {
            trees.push(numbered(&call_of(&mut left)));
        }
    }
    trees
}

fn numbered(draft: &Draft) -> NodeTable {
    draft.number(0, Order::Printing, &mut Dice::new(0, 0))
}
