//! The two callee orders: on each tree the rows that the crate's own files give with their own
//! test of a callee and with ours, the library's rows beside each, and the nodes at which the
//! two differ, held against document 02's Paper 9.

use crate::decided::{Decided, Way, CRATES};
use model::forms::{operator::*, *};
use model::generate::{callees, Dice, Family, Fill, SmallTrees, Stem};
use model::{CalleeOrder, NodeTable};
use oracle::direct::context_of_root;
use oracle::orders::Orders;
use oracle::BuiltTree;

/// Calls, all Fields and Groups by their attributes, and some of what contexts tell apart.
const STEMS: [Stem; 20] = [
    Stem::leaf(PATH, 0, 0),
    Stem::leaf(BLOCK, 0, 0),
    Stem::leaf(STRUCT, 0, 0),
    Stem::leaf(RANGE, 0, 0),
    Stem::one(CALL, 0, 0),
    Stem::one(CALL, 2, 0),
    Stem::new(CALL, 0, 0, [Fill::Hole, Fill::Argument]),
    Stem::one(GROUP, 0, 0),
    Stem::one(GROUP, 1, 0),
    Stem::one(GROUP, 2, 0),
    Stem::one(FIELD, 0, 0),
    Stem::one(FIELD, 1, 0),
    Stem::one(FIELD, 2, 0),
    Stem::one(FIELD, 0, 1),
    Stem::one(FIELD, 1, 1),
    Stem::one(FIELD, 2, 1),
    Stem::one(UNARY, 0, 2),
    Stem::one(LET, 0, 0),
    Stem::one(BREAK, 0, 0),
    Stem::two(BINARY, 0, ADD),
];

/// The most nodes of the small trees.
const NODES: usize = 6;

#[derive(Default)]
struct Tally {
    orders: Orders,
    /// Rows by the library in both orders, and how many of these differ.
    rows: u64,
    different: u64,
}

impl Tally {
    fn compare(&mut self, tree: &NodeTable, dice: &mut Dice) {
        let built = BuiltTree::new(tree.count, &tree.cells);
        let contexts = [context_of_root(tree.context)];
        let [crates, ours] = CalleeOrder::ALL.map(|order| built.rows(order, &contexts).remove(0));
        self.orders.compare(tree, &crates, &ours);
        // Any number but 0 is our order.
        let any = Way::ByOrder(dice.pick(&[1, 1, 2, 3, 256, 65_535]));
        for (way, theirs) in [(CRATES, &crates), (Way::Decide, &ours), (any, &ours)] {
            self.rows += u64::from(tree.count);
            let decided = Decided::new(way, tree.context, tree, dice.below(8));
            for difference in decided.differences(tree, theirs) {
                self.different += 1;
                println!("{way:?}: {difference}, for {tree:?}");
            }
        }
    }

    fn print(&self, name: &str) -> u64 {
        println!("{name}: rows by the library {}, different {}", self.rows, self.different);
        self.orders.print();
        self.different + self.orders.different
    }
}

/// Trees with so many calls or some more. Gives how often something differs.
pub fn compare(calls: u64, seed: u64) -> u64 {
    let dice = &mut Dice::new(seed, 0);
    let mut every = Tally::default();
    for tree in callees::trees() {
        for context in 0..4 {
            every.compare(&NodeTable { context, ..tree.clone() }, dice);
        }
    }
    let mut different = every.print("each case with every kind of thing above and below");
    let trees = SmallTrees::new(STEMS.to_vec(), NODES);
    // All of them for as many calls.
    let step = (trees.len() / calls.max(1)).max(1);
    let mut small = Tally::default();
    for index in (0..trees.len()).step_by(step as usize) {
        small.compare(&trees.tree((index % 4) as u16, index), dice);
    }
    different += small.print(&format!("trees of up to {NODES} nodes"));
    let mut random = Tally::default();
    for index in 0.. {
        if every.orders.calls + small.orders.calls + random.orders.calls >= calls {
            break;
        }
        random.compare(&Family::Callees.tree(seed, index), dice);
    }
    different + random.print(&format!("{}, seed {seed}", Family::Callees.name()))
}
