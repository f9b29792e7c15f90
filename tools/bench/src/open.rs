//! Three open operators of all kinds on the largest trees.

use crate::cases::{Case, Lent};
use crate::clock::Clock;
use crate::sets::with_binaries;
use crate::sides::Side;
use model::sizes::{ENTRY_CELLS, LAST_BINARY, MOST_NODES};

/// Where an entry holds its highest operator.
const HIGHEST: usize = 2;

/// Times them beside tezhukor_decide, once for each tree.
pub fn time_full() {
    let mut lent = Lent::new();
    let is_large = |tree: &model::NodeTable| tree.count > 4_000;
    for tree in with_binaries(MOST_NODES as u16).filter(is_large).take(3) {
        let mut case = Case::new(0, tree, &mut lent);
        case.entries.chunks_mut(ENTRY_CELLS).for_each(|entry| entry[HIGHEST] = LAST_BINARY);
        let [decide, open] = [Side::Decide, Side::Open].map(|side| {
            let clock = Clock::start();
            assert_eq!(side.ask(&case, &mut lent), 0);
            clock.nanoseconds() as f64
        });
        println!(
            "{} nodes, three operators of all kinds: {:.0} ms, {:.0} times a decide of {:.0} us",
            case.tree.count,
            open / 1e6,
            open / decide,
            decide / 1e3
        );
    }
}
