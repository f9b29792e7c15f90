//! The two callee orders of document 02's Paper 9: when a Call groups its callee, the crate's
//! way and ours, and at which nodes the rows of the two differ.

use crate::forms::{CALL, FIELD, GROUP};
use crate::precedence::UNAMBIGUOUS;
use crate::table::{node, Node, NodeTable};

/// Which rule comes first where a Call tells whether its callee needs a pair.
#[derive(Copy, Clone, PartialEq, Eq, Hash, Debug)]
pub enum CalleeOrder {
    /// The crate's: a Field by its member alone, anything else by its precedence.
    Crate,
    /// Ours: by its precedence, and then a named Field, also in Groups.
    Ours,
}

impl CalleeOrder {
    pub const ALL: [CalleeOrder; 2] = [CalleeOrder::Crate, CalleeOrder::Ours];

    /// Its number at the library's boundary, where any but 0 is ours.
    pub const fn number(self) -> u16 {
        self as u16
    }

    /// The order with a number at the boundary.
    pub const fn numbered(number: u16) -> CalleeOrder {
        match number {
            0 => CalleeOrder::Crate,
            _ => CalleeOrder::Ours,
        }
    }

    /// Whether a Call groups its callee, given the precedence that this has there.
    pub fn groups(self, cells: &[u16], callee: u16, precedence: u16) -> bool {
        let is_weaker = precedence < UNAMBIGUOUS;
        match (self, node(cells, callee)) {
            (CalleeOrder::Crate, field) if field.form == FIELD => is_named(field),
            (CalleeOrder::Crate, _) => is_weaker,
            (CalleeOrder::Ours, _) => is_weaker || is_named(below_groups(cells, callee)),
        }
    }
}

/// Whether a node is a Field with a name, and not a number, for its member.
fn is_named(node: Node) -> bool {
    node.form == FIELD && node.detail == 0
}

/// The first node from one down that is no Group.
pub fn below_groups(cells: &[u16], mut number: u16) -> Node {
    loop {
        match node(cells, number) {
            group if group.form == GROUP => number = group.operands[0],
            other => return other,
        }
    }
}

/// What the two orders make of a node.
#[derive(Copy, Clone, PartialEq, Eq, Debug)]
pub enum Apart {
    /// Its rows are equal.
    Same,
    /// A callee that has a pair in our order only.
    Callee,
    /// What stands below such a callee, and may have another row.
    Below,
}

/// What the two orders make of each node of an accepted tree, from node 1 on, of which those
/// have an outer pair in the crate's order. Callees that get a pair are numbered Fields with
/// an outer attribute, and Groups over a named Field, with nothing but Groups between, that
/// had none.
pub fn apart(tree: &NodeTable, has_pair: &[bool]) -> Vec<Apart> {
    let mut apart = vec![Apart::Same; usize::from(tree.count)];
    let gets_pair = |callee: u16| match node(&tree.cells, callee) {
        field if field.form == FIELD => !is_named(field) && field.attributes == 2,
        group if group.form == GROUP => {
            is_named(below_groups(&tree.cells, callee)) && !has_pair[usize::from(callee) - 1]
        }
        _ => false,
    };
    // An owner's number is below its operands', so it comes first.
    for number in 1..=tree.count {
        let Node { form, operands, .. } = node(&tree.cells, number);
        let of_owner = apart[usize::from(number) - 1];
        for (place, operand) in operands.into_iter().enumerate().filter(|place| place.1 != 0) {
            apart[usize::from(operand) - 1] = match of_owner {
                _ if (form, place) == (CALL, 0) && gets_pair(operand) => Apart::Callee,
                Apart::Same => Apart::Same,
                Apart::Callee | Apart::Below => Apart::Below,
            };
        }
    }
    apart
}

#[cfg(test)]
mod tests {
    use super::*;
    use crate::forms::{LINK, PATH, STRUCT};
    use Apart::{Below, Callee, Same};

    fn table(nodes: &[[u16; 6]]) -> NodeTable {
        NodeTable { context: 0, count: nodes.len() as u16, cells: nodes.concat() }
    }

    /// A call of a field in so many groups, with an argument that is a call of a field.
    fn call(field: [u16; 2]) -> NodeTable {
        let [attributes, detail] = field;
        table(&[
            [CALL, 0, 0, 2, 5, 0],
            [GROUP, 2, 0, 3, 0, 0],
            [FIELD, attributes, detail, 4, 0, 0],
            [STRUCT, 0, 0, 0, 0, 0],
            [LINK, 0, 0, 6, 0, 0],
            [CALL, 0, 0, 7, 0, 0],
            [FIELD, attributes, detail, 8, 0, 0],
            [PATH, 0, 0, 0, 0, 0],
        ])
    }

    #[test]
    fn callees_and_what_stands_below() {
        let none = [false; 8];
        let named = [Same, Callee, Below, Below, Same, Same, Same, Same];
        assert_eq!(apart(&call([0, 0]), &none), named);
        assert_eq!(apart(&call([1, 0]), &none), named);
        // A Group that has a pair keeps it.
        let mut paired = none;
        paired[1] = true;
        assert_eq!(apart(&call([2, 0]), &paired), [Same; 8]);
        // A numbered Field gets one by its own attributes, and not in a Group.
        assert_eq!(apart(&call([1, 1]), &none), [Same; 8]);
        let numbered = [Same, Same, Same, Same, Same, Same, Callee, Below];
        assert_eq!(apart(&call([2, 1]), &none), numbered);
    }

    #[test]
    fn tests_of_a_callee() {
        let groups = |tree: &NodeTable, callee, precedence| {
            CalleeOrder::ALL.map(|order| order.groups(&tree.cells, callee, precedence))
        };
        let (named, numbered) = (call([0, 0]), call([0, 1]));
        assert_eq!(groups(&named, 2, UNAMBIGUOUS), [false, true]);
        assert_eq!(groups(&named, 2, UNAMBIGUOUS - 1), [true, true]);
        assert_eq!(groups(&named, 7, UNAMBIGUOUS), [true, true]);
        assert_eq!(groups(&numbered, 2, UNAMBIGUOUS), [false, false]);
        assert_eq!(groups(&numbered, 7, UNAMBIGUOUS), [false, false]);
        assert_eq!(groups(&numbered, 7, UNAMBIGUOUS - 1), [false, true]);
        for order in CalleeOrder::ALL {
            assert_eq!(CalleeOrder::numbered(order.number()), order);
        }
        assert_eq!(CalleeOrder::numbered(65_535), CalleeOrder::Ours);
    }
}
