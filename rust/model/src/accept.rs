//! Which node tables documents 01 and 02 accept: refusals 3, 4 and 6 to 11.
//!
//! The library is held against this. The oracle takes accepted trees only: there it
//! guards the command line, and says in tests that the generators make nothing else.

use crate::forms::{self, Class, Place};
use crate::sizes::{LAST_CONTEXT, MOST_LEVELS, MOST_NODES, NODE_CELLS};
use crate::table::{self, node, Node, NodeTable};

/// Whether a refusal applies to the nodes of a table.
type Test = fn(&[Node]) -> bool;

/// The table of an accepted tree file, or the first refusal that applies: 1 to 11.
pub fn file(file: &[u8]) -> Result<NodeTable, u16> {
    let table = table::read(file)?;
    match refusal(&table) {
        0 => Ok(table),
        refusal => Err(refusal),
    }
}

/// The first refusal that applies to a node table, 0 if none does.
pub fn refusal(table: &NodeTable) -> u16 {
    if table.context > LAST_CONTEXT {
        return 3;
    }
    let count = usize::from(table.count);
    if !(1..=MOST_NODES).contains(&count) || table.cells.len() < NODE_CELLS * count {
        return 4;
    }
    let nodes: Vec<Node> = (1..=table.count).map(|number| node(&table.cells, number)).collect();
    let refusals: [(u16, Test); 6] = [
        (6, label_is_not_allowed),
        (7, operand_is_misplaced),
        (8, numbering_is_wrong),
        (9, segment_or_bound_is_missing),
        (10, body_of_closure_is_no_plain_block),
        (11, path_is_too_long),
    ];
    refusals.iter().find(|(_, applies)| applies(&nodes)).map_or(0, |refusal| refusal.0)
}

fn label_is_not_allowed(nodes: &[Node]) -> bool {
    nodes.iter().any(|node| {
        forms::class(node.form).is_none()
            || node.attributes >= forms::attributes(node.form)
            || node.detail >= forms::details(node.form)
            || node.symbol != 0 && !forms::has_symbol(node.form, node.detail)
    })
}

fn operand_is_misplaced(nodes: &[Node]) -> bool {
    class_at(nodes, 1) != Some(Class::Expression)
        || nodes.iter().any(|node| {
            let places = forms::places(node.form, node.detail);
            !(0..2).all(|side| operand_fits(nodes, node, places[side], node.operands[side]))
        })
}

/// The class of the node with that number, none when there is no such node.
fn class_at(nodes: &[Node], number: u16) -> Option<Class> {
    nodes.get((number as usize).checked_sub(1)?).and_then(|node| forms::class(node.form))
}

fn operand_fits(nodes: &[Node], owner: &Node, place: Place, operand: u16) -> bool {
    if place == Place::Nothing || operand == 0 {
        return operand == 0 && !place.required();
    }
    let Some(found) = class_at(nodes, operand) else {
        return true;
    };
    let items = match place {
        Place::Nothing => return false,
        Place::Expression | Place::OptionalExpression => return found == Class::Expression,
        Place::Type | Place::OptionalType => return found == Class::Type,
        Place::Item => return found != Class::Link,
        Place::ExpressionList => Some(Class::Expression),
        Place::TypeList => Some(Class::Type),
        Place::Next => class_at(nodes, owner.operands[0]),
    };
    if found != Class::Link {
        return false;
    }
    let item = class_at(nodes, nodes[operand as usize - 1].operands[0]);
    item.is_none() || items.is_none() || item == items
}

fn numbering_is_wrong(nodes: &[Node]) -> bool {
    let mut times = vec![0u32; nodes.len() + 1];
    for (at, node) in nodes.iter().enumerate() {
        for operand in node.operands.iter().map(|&operand| operand as usize) {
            if operand == 0 {
                continue;
            }
            if operand <= at + 1 || operand > nodes.len() {
                return true;
            }
            times[operand] += 1;
        }
    }
    times[2..].iter().any(|&owned| owned != 1)
}

fn segment_or_bound_is_missing(nodes: &[Node]) -> bool {
    use forms::{TYPE_IMPL_TRAIT, TYPE_PATH, TYPE_TRAIT_OBJECT};
    nodes.iter().any(|node| {
        matches!(node.form, TYPE_PATH | TYPE_IMPL_TRAIT | TYPE_TRAIT_OBJECT) && node.detail == 0
    })
}

fn body_of_closure_is_no_plain_block(nodes: &[Node]) -> bool {
    nodes.iter().filter(|node| node.form == forms::CLOSURE && node.detail == 1).any(|node| {
        let body = &nodes[node.operands[0] as usize - 1];
        body.form != forms::BLOCK || body.attributes != 0 || body.detail != 0
    })
}

fn path_is_too_long(nodes: &[Node]) -> bool {
    // An owner's number is below its operands', so one pass meets owners first.
    let mut depths = vec![0; nodes.len() + 1];
    for (at, node) in nodes.iter().enumerate() {
        depths[at + 1] += usize::from(node.form != forms::LINK);
        for operand in node.operands {
            if operand != 0 {
                depths[operand as usize] = depths[at + 1];
            }
        }
    }
    depths.iter().any(|&depth| depth > MOST_LEVELS)
}
