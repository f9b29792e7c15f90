//! Calls whose callee the two orders tell apart, and such as are near to these, with every
//! kind of thing above and below.

use super::dice::Dice;
use super::draft::Order;
use super::small::every_stem;
use super::stem::{planted, Fill, Stem, NAME};
use crate::forms::*;
use crate::table::NodeTable;

/// What is called, but for the base of the Field: those that get a pair in our order, and
/// behind them such as get none by it.
const CALLEES: [&[Stem]; 11] = [
    &[NUMBERED[2]],
    &[GROUPS[0], NAMED[0]],
    &[GROUPS[2], GROUPS[1], NAMED[1]],
    &[GROUPS[1], GROUPS[0], GROUPS[2], NAMED[0]],
    &[NAMED[0]],
    &[NAMED[2]],
    &[NUMBERED[0]],
    &[NUMBERED[1]],
    &[GROUPS[0], NAMED[2]],
    &[GROUPS[0], NUMBERED[2]],
    &[GROUPS[0], Stem::one(PAREN, 0, 0), NAMED[0]],
];

/// How many of them get a pair in our order.
const APART: usize = 4;

/// By their attributes.
const GROUPS: [Stem; 3] = [Stem::one(GROUP, 0, 0), Stem::one(GROUP, 1, 0), Stem::one(GROUP, 2, 0)];
const NAMED: [Stem; 3] = [Stem::one(FIELD, 0, 0), Stem::one(FIELD, 1, 0), Stem::one(FIELD, 2, 0)];
const NUMBERED: [Stem; 3] =
    [Stem::one(FIELD, 0, 1), Stem::one(FIELD, 1, 1), Stem::one(FIELD, 2, 1)];

/// Each callee below each kind of owner and over each kind of base, one after the other; those
/// that get no pair by our order once in each context.
pub fn trees() -> Vec<NodeTable> {
    let base = Stem::leaf(PATH, 0, 0);
    let mut trees = Vec::new();
    for (at, callee) in CALLEES.into_iter().enumerate() {
        let called = |above: Option<Stem>, below: Stem| -> Vec<Stem> {
            let call = [Stem::one(CALL, 0, 0)].into_iter().chain(callee.iter().copied());
            above.into_iter().chain(call).chain([below]).collect()
        };
        let mut all = vec![called(None, base); 4];
        if at < APART {
            all.extend(above().into_iter().map(|owner| called(Some(owner), base)));
            all.extend(below().map(|below| called(None, below)));
        }
        trees.extend((0..).zip(all).map(|(context, stems)| {
            let draft = planted(stems);
            draft.number(context % 4, Order::Printing, &mut Dice::new(0, 0))
        }));
    }
    trees
}

/// Each kind of thing above, with one place open and a name in the other.
fn above() -> Vec<Stem> {
    let mut all = Vec::new();
    for stem in every_stem() {
        for (place, other) in [(0, 1), (1, 0)] {
            let mut fills = stem.fills;
            if fills[other] == Fill::Hole {
                fills[other] = NAME;
            }
            let is_open = |fill: &Fill| matches!(fill, Fill::Hole | Fill::Argument);
            if is_open(&fills[place]) && !is_open(&fills[other]) {
                all.push(Stem { fills, ..stem });
            }
        }
    }
    all
}

/// Each kind of thing below, with names for further expressions.
fn below() -> impl Iterator<Item = Stem> {
    every_stem().into_iter().filter(|stem| stem.fills[1] != Fill::Argument).map(Stem::named)
}

#[cfg(test)]
mod tests {
    use super::*;
    use crate::accept;
    use crate::callee::{apart, below_groups, Apart};

    /// All are accepted, and those and no others get a pair by our order, where the crate has
    /// one for a Field with outer attributes in Groups.
    #[test]
    fn callees_are_told_apart() {
        let (trees, mut changed) = (trees(), 0);
        for tree in &trees {
            assert_eq!(accept::refusal(tree), 0, "{tree:?}");
            let is_attributed = |number| below_groups(&tree.cells, number).attributes == 2;
            let has_pair: Vec<bool> = (1..=tree.count).map(is_attributed).collect();
            changed += usize::from(apart(tree, &has_pair).contains(&Apart::Callee));
        }
        assert_eq!(trees.len() - changed, 4 * (CALLEES.len() - APART));
    }
}
