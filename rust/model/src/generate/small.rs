//! All trees of few nodes over a set of stems.

use super::curb::curb;
use super::dice::Dice;
use super::draft::{Draft, Label, Order, Slot};
use super::stem::{Fill, Stem, TYPE};
use crate::forms::{self, operator::*, *};
use crate::table::NodeTable;

/// All trees with up to so many nodes that a set of stems gives, in a fixed
/// order and by number.
pub struct SmallTrees {
    stems: Vec<Stem>,
    /// How many trees have exactly so many nodes.
    counts: Vec<u64>,
}

impl SmallTrees {
    pub fn new(stems: Vec<Stem>, most_nodes: usize) -> Self {
        let mut trees = SmallTrees { stems, counts: vec![0] };
        for nodes in 1..=most_nodes {
            let count = trees.stems.iter().map(|stem| trees.count_below(stem, nodes)).sum();
            trees.counts.push(count);
        }
        trees
    }

    /// Every label of document 01 that a tree of up to three nodes can have: all
    /// attributes, details and choices of operands, Casts to every type without
    /// operands, and calls with one argument or none.
    ///
    /// Up to 1, 2, 3 nodes: 95, 7,223 and 1,416,773 trees, each in four contexts.
    pub fn every_label(most_nodes: usize) -> Self {
        SmallTrees::new(every_stem(), most_nodes)
    }

    /// One label for each kind of behaviour.
    ///
    /// Up to 3, 4, 5 nodes: 9,142, 324,842 and 12,896,954 trees, each in four
    /// contexts.
    pub fn representative(most_nodes: usize) -> Self {
        SmallTrees::new(REPRESENTATIVE.to_vec(), most_nodes)
    }

    /// The forms of right spines with few ends and next operators.
    ///
    /// Up to 4, 5, 6 nodes: 5,208, 71,980 and 1,046,412 trees, each in four
    /// contexts.
    pub fn narrow(most_nodes: usize) -> Self {
        SmallTrees::new(NARROW.to_vec(), most_nodes)
    }

    /// How many trees there are, without contexts.
    pub fn len(&self) -> u64 {
        self.counts.iter().sum()
    }

    /// Whether there is no tree at all.
    pub fn is_empty(&self) -> bool {
        self.len() == 0
    }

    /// How many trees of exactly so many nodes have this stem at their root.
    fn count_below(&self, stem: &Stem, nodes: usize) -> u64 {
        let Some(rest) = nodes.checked_sub(stem.nodes()) else {
            return 0;
        };
        match stem.holes() {
            0 => u64::from(rest == 0),
            1 => self.counts[rest],
            _ => (1..rest).map(|first| self.counts[first] * self.counts[rest - first]).sum(),
        }
    }

    /// The tree with a number from 0 on, the smallest trees first.
    pub fn draft(&self, mut index: u64) -> Draft {
        let mut draft = Draft::default();
        for nodes in 1..self.counts.len() {
            if index < self.counts[nodes] {
                self.plant(&mut draft, None, nodes, index);
                return draft;
            }
            index -= self.counts[nodes];
        }
        panic!("there are only {} trees", self.len());
    }

    fn plant(&self, draft: &mut Draft, slot: Option<Slot>, nodes: usize, mut index: u64) {
        for stem in &self.stems {
            let count = self.count_below(stem, nodes);
            if index >= count {
                index -= count;
                continue;
            }
            let holes = stem.plant(draft, slot);
            let rest = nodes - stem.nodes();
            match holes[..] {
                [] => {}
                [hole] => self.plant(draft, Some(hole), rest, index),
                [first, second] => {
                    for nodes in 1..rest {
                        let seconds = self.counts[rest - nodes];
                        let both = self.counts[nodes] * seconds;
                        if index < both {
                            self.plant(draft, Some(first), nodes, index / seconds);
                            self.plant(draft, Some(second), rest - nodes, index % seconds);
                            return;
                        }
                        index -= both;
                    }
                }
                _ => unreachable!("a stem has two places"),
            }
            return;
        }
    }

    /// The tree with a number, in a context, its nodes numbered as printed.
    pub fn tree(&self, context: u16, index: u64) -> NodeTable {
        let mut draft = self.draft(index);
        curb(&mut draft);
        draft.number(context, Order::Printing, &mut Dice::new(0, index))
    }
}

/// All stems.
pub(super) fn every_stem() -> Vec<Stem> {
    use Fill::{Argument, Hole, Nothing};
    let mut types = Vec::new();
    for form in TYPE_ARRAY..=TYPE_VERBATIM {
        for detail in 0..forms::details(form) {
            let segmented = matches!(form, TYPE_PATH | TYPE_IMPL_TRAIT | TYPE_TRAIT_OBJECT);
            let required = forms::places(form, detail).iter().any(|place| place.required());
            if !(required || segmented && detail == 0) {
                types.push(Label::new(form, 0, detail));
            }
        }
    }
    let mut stems = Vec::new();
    for form in 1..=40 {
        for attributes in 0..forms::attributes(form) {
            for detail in 0..forms::details(form) {
                let mut add = |fills| stems.push(Stem::new(form, attributes, detail, fills));
                match form {
                    CAST => types.iter().for_each(|&ty| add([Hole, Fill::Leaf(ty)])),
                    CLOSURE if detail == 1 => add([Fill::Leaf(Label::of(BLOCK)), Nothing]),
                    _ => {
                        let choices = forms::places(form, detail).map(|place| match place {
                            Place::Expression => vec![Hole],
                            Place::OptionalExpression => vec![Nothing, Hole],
                            Place::ExpressionList => vec![Nothing, Argument],
                            _ => vec![Nothing],
                        });
                        for &first in &choices[0] {
                            for &second in &choices[1] {
                                add([first, second]);
                            }
                        }
                    }
                }
            }
        }
    }
    stems
}

/// One for each kind of behaviour.
const REPRESENTATIVE: [Stem; 57] = [
    Stem::leaf(PATH, 0, 0),
    Stem::leaf(LIT, 2, 0),
    Stem::leaf(BLOCK, 0, 0),
    Stem::leaf(LOOP, 0, 1),
    Stem::leaf(MATCH, 0, 0),
    Stem::leaf(STRUCT, 0, 0),
    Stem::leaf(MACRO, 0, 2),
    Stem::leaf(RANGE, 0, 0),
    Stem::leaf(BREAK, 0, 0),
    Stem::leaf(RETURN, 0, 0),
    Stem::one(RANGE, 0, 0),
    Stem::new(RANGE, 0, 0, [Fill::Nothing, Fill::Hole]),
    Stem::one(UNARY, 0, 2),
    Stem::one(REFERENCE, 2, 0),
    Stem::one(LET, 0, 0),
    Stem::one(GROUP, 0, 0),
    Stem::one(GROUP, 1, 0),
    Stem::one(CLOSURE, 0, 0),
    Stem::one(BREAK, 0, 0),
    Stem::one(BREAK, 0, 1),
    Stem::one(RETURN, 0, 0),
    Stem::one(FIELD, 0, 0),
    Stem::one(FIELD, 0, 1),
    Stem::one(TRY, 0, 0),
    Stem::one(CALL, 0, 0),
    Stem::one(PAREN, 0, 0),
    Stem::new(CAST, 0, 0, [Fill::Hole, TYPE]),
    Stem::cast(0, Label::new(TYPE_PATH, 0, 2)),
    Stem::new(CALL, 0, 0, [Fill::Hole, Fill::Argument]),
    Stem::two(INDEX, 0, 0),
    Stem::two(ASSIGN, 0, 0),
    Stem::two(ASSIGN, 2, 0),
    Stem::two(RANGE, 0, 0),
    Stem::two(RANGE, 1, 0),
    Stem::two(BINARY, 0, ADD),
    Stem::two(BINARY, 0, SUB),
    Stem::two(BINARY, 0, MUL),
    Stem::two(BINARY, 0, 3),
    Stem::two(BINARY, 0, AND),
    Stem::two(BINARY, 0, OR),
    Stem::two(BINARY, 0, BIT_XOR),
    Stem::two(BINARY, 0, BIT_AND),
    Stem::two(BINARY, 0, BIT_OR),
    Stem::two(BINARY, 0, SHL),
    Stem::two(BINARY, 0, SHR),
    Stem::two(BINARY, 0, EQ),
    Stem::two(BINARY, 0, LT),
    Stem::two(BINARY, 0, LE),
    Stem::two(BINARY, 0, ADD_ASSIGN),
    Stem::two(BINARY, 1, ADD),
    Stem::two(BINARY, 2, EQ),
    Stem::leaf(BLOCK, 1, 0),
    Stem::leaf(BLOCK, 2, 1),
    Stem::leaf(YIELD, 0, 0),
    Stem::leaf(VERBATIM, 0, 1),
    Stem::one(METHOD_CALL, 0, 0),
    Stem::one(AWAIT, 1, 0),
];

/// Forms of right spines.
const NARROW: [Stem; 20] = [
    Stem::leaf(PATH, 0, 0),
    Stem::leaf(BLOCK, 0, 0),
    Stem::leaf(RANGE, 0, 0),
    Stem::leaf(BREAK, 0, 0),
    Stem::one(RANGE, 0, 0),
    Stem::new(RANGE, 0, 0, [Fill::Nothing, Fill::Hole]),
    Stem::one(UNARY, 0, 2),
    Stem::one(LET, 0, 0),
    Stem::one(GROUP, 0, 0),
    Stem::one(BREAK, 0, 0),
    Stem::one(CLOSURE, 0, 0),
    Stem::one(FIELD, 0, 0),
    Stem::new(CAST, 0, 0, [Fill::Hole, TYPE]),
    Stem::two(ASSIGN, 0, 0),
    Stem::two(RANGE, 0, 0),
    Stem::two(BINARY, 0, ADD),
    Stem::two(BINARY, 0, MUL),
    Stem::two(BINARY, 0, EQ),
    Stem::two(BINARY, 0, AND),
    Stem::two(BINARY, 0, ADD_ASSIGN),
];
