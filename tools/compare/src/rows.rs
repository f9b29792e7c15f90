//! The row of each expression, put together from our functions as document 01's
//! 'Decisions' says, in either callee order, beside the row that the crate gives while it prints.
//!
//! This shows what expr's and fixup's functions answer, below a root in a context
//! of any content, which no header can give. No contract speaks of the way in
//! which they are put together here. That the rows which a caller gets are the
//! crate's is shown by `decided`: there tezhukor_decide puts the functions
//! together, in the four contexts that a header can give, and tezhukor_decide_by_order.

use model::forms::{Class, ASSIGN, BINARY, CAST, RANGE};
use model::{table, CalleeOrder, NodeTable};
use oracle::direct::Context;
use oracle::Row;
use tezhukor::boundary::questions::{self, Handed, InContext, Maker, Place};

/// The rows of an accepted tree in a callee order, from node 1 on; zeros for types and links.
pub fn rows(order: CalleeOrder, root: Context, tree: &NodeTable) -> Vec<Row> {
    let none = questions::context(Maker::None, [0; 3], [false; 2], 0);
    let place = Place { table: &tree.cells, count: tree.count, node: 1 };
    let precedence = questions::answer_in(InContext::Precedence, root, place);
    let at_root = Handed { precedence, context: root, needs_group: false };
    let mut handed = vec![at_root; usize::from(tree.count)];
    // An owner has a smaller number than its operands, so it comes first.
    let row = |node| {
        let place = Place { table: &tree.cells, count: tree.count, node };
        let from_owner = handed[usize::from(node) - 1];
        let row = match table::class(&tree.cells, node) {
            Class::Expression => row(from_owner, place),
            Class::Type | Class::Link => Row::default(),
        };
        let own = if row.pair & 1 == 1 { none } else { from_owner.context };
        for (question, operand) in (0..).zip(table::node(&tree.cells, node).operands) {
            if operand != 0 {
                handed[usize::from(operand) - 1] = questions::handed(order, question, own, place);
            }
        }
        row
    };
    (1..=tree.count).map(row).collect()
}

/// The row of an expression.
fn row(handed: Handed, place: Place) -> Row {
    let Handed { precedence, context, needs_group } = handed;
    let parenthesize = questions::answer_in(InContext::Parenthesize, context, place) == 1;
    let outer = needs_group || parenthesize;
    let node = table::node(place.table, place.node);
    let inner = matches!(node.form, ASSIGN | BINARY | CAST | RANGE) && node.attributes != 0;
    let pair = u16::from(outer) + 2 * u16::from(inner);
    let [previous, next, flags] = context;
    Row { pair, precedence, previous, next, flags }
}
