//! Both callee orders of document 02's Paper 9, by the crate's own files.

use model::generate::{callees, Family, SmallTrees};
use model::{CalleeOrder, NodeTable};
use oracle::direct::context_of_root;
use oracle::orders::Orders;
use oracle::{BuiltTree, Row};

/// The rows in both orders.
fn rows(tree: &NodeTable) -> [Vec<Row>; 2] {
    let built = BuiltTree::new(tree.count, &tree.cells);
    let contexts = [context_of_root(tree.context)];
    CalleeOrder::ALL.map(|order| built.rows(order, &contexts).remove(0))
}

fn compare(trees: impl Iterator<Item = NodeTable>) -> Orders {
    let mut orders = Orders::default();
    for tree in trees {
        let [crates, ours] = rows(&tree);
        orders.compare(&tree, &crates, &ours);
    }
    orders.print();
    orders
}

/// Random trees, and each case with every kind of thing above and below: the orders differ
/// where it is said, and in each case.
#[test]
fn orders_differ() {
    let random = compare((0..40_000).map(|index| Family::Callees.tree(1, index)));
    assert_eq!(random.different, 0);
    assert!(random.fields > 500 && random.groups > 500 && random.gone > 0, "{random:?}");
    let every = compare(callees::trees().into_iter());
    assert_eq!(every.different, 0);
    assert!(every.fields > 500 && every.groups > 1_500, "{every:?}");
    let small = SmallTrees::representative(4);
    let some = (0..small.len()).step_by(29).map(|index| small.tree((index % 4) as u16, index));
    assert_eq!(compare(some).different, 0);
}

/// Plain trees have neither case.
#[test]
fn plain_orders() {
    for family in [Family::Plain, Family::Structs] {
        let plain = compare((0..5_000).map(|index| family.tree(2, index)));
        assert_eq!([plain.different, plain.apart], [0, 0]);
        assert!(plain.calls > 2_000, "{plain:?}");
    }
}

/// A Struct below a Group that gets a pair loses its own: the pair starts from NONE.
#[test]
fn a_pair_goes_below_a_new_one() {
    let nodes = [[8, 0, 0, 2, 0, 0], [15, 0, 0, 3, 0, 0], [13, 0, 0, 4, 0, 0], [32, 0, 0, 0, 0, 0]];
    let tree = NodeTable { context: 3, count: 4, cells: nodes.concat() };
    let pairs = rows(&tree).map(|rows| rows.iter().map(|row| row.pair).collect::<Vec<u16>>());
    assert_eq!(pairs, [[0, 0, 0, 1], [0, 1, 0, 0]]);
}
