//! Where a refused file is wrong. The refusal is the library's; this only looks for the
//! place that it speaks of.

use crate::kind::Kind;
use model::columns::{self, Outside};
use model::NodeTable;
use tezhukor::forms::{self, Class, Place};
use tezhukor::sizes::{MOST_LEVELS, NODE_CELLS};
use tezhukor::{Node, Refusal};

/// The numbers of a node, as a rearranged file has a column for each.
const COLUMNS: [&str; NODE_CELLS] =
    ["form", "attributes", "detail", "first operand", "second operand", "symbol"];

/// The place that a refusal of a file speaks of, in words.
pub fn place(kind: Kind, refusal: Refusal, file: &[u8]) -> String {
    let (numbers, malformed) = numbers(file);
    let number = |at: usize| numbers.get(at).map_or("absent".to_string(), u16::to_string);
    match refusal {
        Refusal::FileTooLong | Refusal::Buffer => String::new(),
        Refusal::Header => format!(" at byte {malformed}"),
        Refusal::Context => format!(" with context {}", number(0)),
        Refusal::Count => format!(" with count {}", number(1)),
        Refusal::Body => body(kind, &numbers, malformed),
        _ => match (kind, restored(&numbers)) {
            (Kind::Columns, Err(Outside { column, node })) => {
                format!(" at node {node}, {}", COLUMNS[column])
            }
            (Kind::Columns, Ok(restored)) => at_node(refusal, &nodes(&restored)),
            (Kind::Tree, _) => at_node(refusal, &nodes(numbers.get(2..).unwrap_or(&[]))),
        },
    }
}

fn at_node(refusal: Refusal, nodes: &[Node]) -> String {
    node(refusal, nodes).map_or(String::new(), |node| format!(" at node {node}"))
}

/// The cells of the nodes of a rearranged file, from its numbers.
fn restored(numbers: &[u16]) -> Result<Vec<u16>, Outside> {
    let cells = numbers.get(2..).unwrap_or(&[]).to_vec();
    columns::restored(&NodeTable { context: 0, count: 0, cells }).map(|table| table.cells)
}

/// The numbers of a file up to the first that is malformed, and where that begins.
fn numbers(file: &[u8]) -> (Vec<u16>, usize) {
    let (mut numbers, mut at) = (Vec::new(), 0);
    while let Some((number, length)) = number(&file[at..]) {
        numbers.push(number);
        at += length;
    }
    (numbers, at)
}

/// A number and how many bytes it takes, none if it is malformed.
fn number(bytes: &[u8]) -> Option<(u16, usize)> {
    let length = bytes.iter().take(3).position(|byte| *byte < 0x80)? + 1;
    let groups = bytes[..length].iter().rev();
    let value = groups.fold(0u32, |value, byte| value << 7 | u32::from(byte & 0x7F));
    let is_padded = length > 1 && bytes[length - 1] == 0;
    u16::try_from(value).ok().filter(|_| !is_padded).map(|number| (number, length))
}

fn body(kind: Kind, numbers: &[u16], malformed: usize) -> String {
    let count = numbers.get(1).copied().map_or(0, usize::from);
    let well_formed = numbers.len().saturating_sub(2);
    if well_formed >= NODE_CELLS * count {
        return " behind the last node".to_string();
    }
    match kind {
        Kind::Tree => format!(" at node {}, byte {malformed}", well_formed / NODE_CELLS + 1),
        Kind::Columns => {
            let (column, node) = (COLUMNS[well_formed / count], well_formed % count + 1);
            format!(" at node {node}, {column}, byte {malformed}")
        }
    }
}

/// The nodes of a tree file, up to the first number that is malformed; of a rearranged file,
/// where all its numbers are there.
pub fn listed(kind: Kind, file: &[u8]) -> Vec<Node> {
    let numbers = numbers(file).0;
    let count = numbers.get(1).copied().map_or(0, usize::from);
    match kind {
        Kind::Tree => nodes(numbers.get(2..).unwrap_or(&[])),
        Kind::Columns if numbers.len() != 2 + NODE_CELLS * count => Vec::new(),
        Kind::Columns => restored(&numbers).map_or(Vec::new(), |cells| nodes(&cells)),
    }
}

fn nodes(cells: &[u16]) -> Vec<Node> {
    cells.chunks_exact(NODE_CELLS).map(Node::of_cells).collect()
}

/// The first node that a refusal from 6 to 11 speaks of.
pub fn node(refusal: Refusal, nodes: &[Node]) -> Option<usize> {
    let first = |is_wrong: &dyn Fn(&Node) -> bool| nodes.iter().position(is_wrong).map(|at| at + 1);
    match refusal {
        Refusal::Label => first(&has_bad_label),
        Refusal::Operand if class(nodes, 1) != Some(Class::Expression) => Some(1),
        Refusal::Operand => first(&|node| has_bad_operand(nodes, node)),
        Refusal::Numbering => badly_numbered(nodes),
        Refusal::SegmentOrBound => first(&lacks_segment_or_bound),
        Refusal::ClosureBody => first(&|node| has_bad_body(nodes, node)),
        Refusal::Depth => too_deep(nodes),
        _ => None,
    }
}

fn has_bad_label(node: &Node) -> bool {
    forms::class(node.form).is_none()
        || node.attributes >= forms::attributes(node.form)
        || node.detail >= forms::details(node.form)
        || node.symbol != 0 && !forms::has_symbol(node.form, node.detail)
}

fn at(nodes: &[Node], number: u16) -> Option<&Node> {
    nodes.get(usize::from(number).checked_sub(1)?)
}

fn class(nodes: &[Node], number: u16) -> Option<Class> {
    at(nodes, number).and_then(|node| forms::class(node.form))
}

fn has_bad_operand(nodes: &[Node], node: &Node) -> bool {
    let [first, second] = forms::places(node.form, node.detail);
    !fits(nodes, node, first, node.first) || !fits(nodes, node, second, node.second)
}

/// Whether a place of a node may have that operand. An operand above the count has
/// no class, and fits wherever one may stand.
fn fits(nodes: &[Node], owner: &Node, place: Place, operand: u16) -> bool {
    if operand == 0 {
        return !place.required();
    }
    let list_of = |items: Option<Class>| {
        let item = at(nodes, operand).and_then(|link| class(nodes, link.first));
        let is_link = class(nodes, operand).is_none_or(|class| class == Class::Link);
        is_link && (item.is_none() || items.is_none() || item == items)
    };
    let is = |wanted| class(nodes, operand).is_none_or(|class| class == wanted);
    match place {
        Place::Nothing => false,
        Place::Expression | Place::OptionalExpression => is(Class::Expression),
        Place::Type | Place::OptionalType => is(Class::Type),
        Place::Item => class(nodes, operand) != Some(Class::Link),
        Place::ExpressionList => list_of(Some(Class::Expression)),
        Place::TypeList => list_of(Some(Class::Type)),
        Place::Next => list_of(class(nodes, owner.first)),
    }
}

/// An owner whose operand is not above it or above the count, or else a node that is
/// not owned exactly once.
fn badly_numbered(nodes: &[Node]) -> Option<usize> {
    let mut owned = vec![0; nodes.len() + 1];
    for (owner, node) in (1..).zip(nodes) {
        for operand in [node.first, node.second].map(usize::from) {
            if operand != 0 && (operand <= owner || operand > nodes.len()) {
                return Some(owner);
            }
            owned[operand] += 1;
        }
    }
    (2..=nodes.len()).find(|&number| owned[number] != 1)
}

fn lacks_segment_or_bound(node: &Node) -> bool {
    let forms = [forms::TYPE_PATH, forms::TYPE_IMPL_TRAIT, forms::TYPE_TRAIT_OBJECT];
    forms.contains(&node.form) && node.detail == 0
}

fn has_bad_body(nodes: &[Node], node: &Node) -> bool {
    let is_block = |body: &Node| [body.form, body.attributes, body.detail] == [forms::BLOCK, 0, 0];
    node.form == forms::CLOSURE && node.detail == 1 && !at(nodes, node.first).is_some_and(is_block)
}

/// The first node that is too deep, links not counted.
fn too_deep(nodes: &[Node]) -> Option<usize> {
    let mut depths = vec![0; nodes.len() + 1];
    for (number, node) in (1..).zip(nodes) {
        let depth = depths[number] + usize::from(node.form != forms::LINK);
        if depth > MOST_LEVELS {
            return Some(number);
        }
        for operand in [node.first, node.second].map(usize::from) {
            if let Some(below) = depths.get_mut(operand) {
                *below = depth;
            }
        }
    }
    None
}

#[cfg(test)]
mod tests {
    use super::*;
    use model::recorded::{records, Record};
    use tezhukor::Tree;

    /// A node is found for each recorded file that is refused for one, and none in a
    /// file that is accepted.
    #[test]
    fn refused_nodes_are_found() {
        let (mut found, mut accepted) = (0, 0);
        for Record { bytes: file, .. } in records("files") {
            let nodes = nodes(numbers(&file).0.get(2..).unwrap_or(&[]));
            match Tree::load(&file) {
                Ok(_) => {
                    let blamed = Refusal::ALL.map(|refusal| node(refusal, &nodes));
                    assert!(blamed.iter().all(Option::is_none));
                    accepted += 1;
                }
                Err(refusal) if (6..=11).contains(&refusal.number()) => {
                    assert!(node(refusal, &nodes).is_some(), "{refusal:?} {nodes:?}");
                    found += 1;
                }
                Err(refusal) => assert!(place(Kind::Tree, refusal, &file).len() < 60),
            }
        }
        assert!(found > 5_000 && accepted > 1_000, "{found} found, {accepted} accepted");
    }
}
