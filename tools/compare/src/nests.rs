//! The rows of nests of as many levels as a path may have, by our library from
//! their tree files, beside the crate's with the answers of scan_right kept; and
//! these beside the crate's own, where it comes to an end.

use crate::spines::{compare_rows, described, Theirs, CONTEXTS};
use model::generate::{Family, Spines, LONGEST_NEST, NESTS};
use model::NodeTable;
use oracle::direct::context_of_root;
use oracle::keeping;

/// The crate's rows with the answers of scan_right kept.
const KEPT: Theirs = |roots, count, cells| keeping(|| oracle::rows(roots, count, cells));

const FAMILIES: [Family; 4] = [Family::Random, Family::Scans, Family::Spines, Family::Plain];

/// How many trees of a family the crate's own rows are compared on.
const TREES: u64 = 50_000;

/// Each so many-th spine of three forms is compared on as well.
const STEP: usize = 1_259;

/// How often rows differ.
pub fn compare() -> u64 {
    let mut different = 0;
    for family in FAMILIES {
        different += hold(family.name(), (0..TREES).map(|index| family.tree(1, index)));
    }
    let three = Spines::over_kinds(3);
    let some = (0..three.len()).step_by(STEP).map(|index| three.tree(0, index));
    different += hold("some spines of three forms", some);
    let short = NESTS.iter().flat_map(|nest| nest.doubling(LONGEST_NEST));
    different += hold("nests that the crate finishes", short);
    for spines in [Spines::with_few_ends(2), Spines::over_arms(3)] {
        let nests = (0..spines.len()).map(|index| spines.nest(0, index));
        different += compare_rows(&described("nests by turns", &spines), nests, KEPT);
    }
    let long = NESTS.iter().map(|nest| nest.longest(0));
    different + compare_rows("the nests of docs/PERFORMANCE.md", long, KEPT)
}

/// The crate's rows with answers kept, beside those without.
fn hold(name: &str, trees: impl Iterator<Item = NodeTable>) -> u64 {
    let roots = CONTEXTS.map(context_of_root);
    let (mut count, mut different) = (0, 0);
    for tree in trees {
        count += 1;
        let own = oracle::rows(&roots, tree.count, &tree.cells);
        if KEPT(&roots, tree.count, &tree.cells) != own {
            different += 1;
            println!("other rows where answers are kept, for {tree:?}");
        }
    }
    println!("answers kept or not, {name}: trees {count}, different {different}");
    different
}
