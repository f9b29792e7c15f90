//! What an edit would give, and which pairs it would bring and take.

use crate::text::{Names, Pair, Text};
use crate::{OpenSheet, Row, Tree};
use std::collections::{HashMap, HashSet};

/// A tree with its rows.
#[derive(Clone, PartialEq, Eq, Debug)]
struct Rowed {
    tree: Tree,
    rows: Vec<Row>,
}

impl Rowed {
    fn new(sheet: &OpenSheet) -> Rowed {
        Rowed { tree: sheet.tree(), rows: sheet.rows() }
    }

    fn text(&self, names: &Names) -> Text {
        Text::new(&self.tree, &self.rows, names)
    }
}

/// What an edit would give.
#[derive(Clone, PartialEq, Eq, Debug)]
pub struct Preview {
    /// The node that is replaced.
    node: u16,
    before: Rowed,
    after: Rowed,
    /// The numbers after the edit, by those before, of the expressions that stay and of
    /// that whose place is taken.
    places: HashMap<u16, u16>,
}

impl Preview {
    /// Of a node of a sheet, and the sheet that comes of it.
    pub(crate) fn new(sheet: &OpenSheet, node: u16, result: &OpenSheet) -> Preview {
        let (before, after) = (Rowed::new(sheet), Rowed::new(result));
        let places = places(&before.tree, node, &after.tree);
        Preview { node, before, after, places }
    }

    /// The tree after the edit.
    pub fn tree(&self) -> &Tree {
        &self.after.tree
    }

    /// The rows after the edit, node 1 first.
    pub fn rows(&self) -> &[Row] {
        &self.after.rows
    }

    /// Both texts, and which pairs differ.
    pub fn sight(&self, names: &Names) -> Sight {
        let (before, after) = (self.before.text(names), self.after.text(names));
        let (old, new) = (before.pairs(), after.pairs());
        let places: HashSet<_> = old.iter().filter_map(|pair| self.afterwards(pair)).collect();
        let there: HashSet<_> = new.iter().map(place).collect();
        let stays = |pair: &&Pair| self.afterwards(pair).is_some_and(|at| there.contains(&at));
        let go = old.iter().filter(|pair| !stays(pair)).copied().collect();
        let come = new.iter().filter(|pair| !places.contains(&place(pair))).copied().collect();
        Sight { before, after, come, go }
    }

    /// Where a pair would stand afterwards, if it stays.
    fn afterwards(&self, pair: &Pair) -> Option<(u16, bool)> {
        let is_replaced = pair.is_inner && pair.node == self.node;
        let node = self.places.get(&pair.node).filter(|_| !is_replaced)?;
        Some((*node, pair.is_inner))
    }
}

/// What tells a pair from the others of its text.
fn place(pair: &Pair) -> (u16, bool) {
    (pair.node, pair.is_inner)
}

/// An edit as it is seen: the text before and after it, and the pairs that come and go, each
/// by its node and its place in the text that it stands in. A pair stays where it stands
/// round the same expression before and after, and where one stands round what is replaced
/// and one round what replaces it.
#[derive(Clone, PartialEq, Eq, Debug)]
pub struct Sight {
    pub before: Text,
    pub after: Text,
    /// Pairs of the text after.
    pub come: Vec<Pair>,
    /// Pairs of the text before.
    pub go: Vec<Pair>,
}

/// What number each node that stays has afterwards, and the node whose place is taken.
fn places(before: &Tree, node: u16, after: &Tree) -> HashMap<u16, u16> {
    let (mut places, mut waiting) = (HashMap::new(), vec![(1, 1)]);
    while let Some((old, new)) = waiting.pop() {
        places.insert(old, new);
        let (Some(from), Some(to)) = (before.node(old), after.node(new)) else {
            continue;
        };
        if old != node {
            let operands = [(from.first, to.first), (from.second, to.second)];
            waiting.extend(operands.into_iter().filter(|(old, _)| *old != 0));
        }
    }
    places
}
