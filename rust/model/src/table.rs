//! Node tables and tree files.

use crate::forms::{self, Class};
use crate::sizes::{LAST_CONTEXT, MOST_FILE_BYTES, MOST_NODES, NODE_CELLS};
use std::cmp::Ordering;

/// Where the cells of a node stand.
pub const FORM: usize = 0;
pub const ATTRIBUTES: usize = 1;
pub const DETAIL: usize = 2;
pub const FIRST: usize = 3;
pub const SECOND: usize = 4;
pub const SYMBOL: usize = 5;

/// A node table: the cells of its nodes, with context and count beside it.
#[derive(Clone, PartialEq, Eq, Debug)]
pub struct NodeTable {
    pub context: u16,
    pub count: u16,
    pub cells: Vec<u16>,
}

impl NodeTable {
    /// The tree with its nodes numbered from the root on: parents before operands, and
    /// the first operand's nodes before the second's.
    pub fn numbered(&self) -> NodeTable {
        let mut numbers = vec![0; usize::from(self.count) + 1];
        let (mut met, mut waiting) = (Vec::new(), vec![1]);
        while let Some(number) = waiting.pop() {
            let node = node(&self.cells, number);
            met.push(node);
            numbers[usize::from(number)] = met.len() as u16;
            waiting.extend(node.operands.iter().rev().filter(|&&operand| operand != 0));
        }
        let cells = met.iter().flat_map(|node| {
            let [first, second] = node.operands.map(|operand| numbers[usize::from(operand)]);
            [node.form, node.attributes, node.detail, first, second, node.symbol]
        });
        NodeTable { context: self.context, count: self.count, cells: cells.collect() }
    }

    /// How the file of this table stands to another's: contexts, then number by number.
    pub fn cmp(&self, other: &NodeTable) -> Ordering {
        self.context.cmp(&other.context).then_with(|| self.cells.cmp(&other.cells))
    }

    /// The tree in so many parentheses.
    pub fn in_parens(&self, pairs: u16) -> NodeTable {
        let mut cells: Vec<u16> =
            (1..=pairs).flat_map(|number| [forms::PAREN, 0, 0, number + 1, 0, 0]).collect();
        for node in self.cells.chunks(NODE_CELLS) {
            let moved = |&operand: &u16| if operand == 0 { 0 } else { operand + pairs };
            cells.extend(&node[..FIRST]);
            cells.extend(node[FIRST..=SECOND].iter().map(moved));
            cells.push(node[SYMBOL]);
        }
        NodeTable { context: self.context, count: self.count + pairs, cells }
    }
}

/// The numbers of a node.
#[derive(Copy, Clone, PartialEq, Eq, Debug)]
pub struct Node {
    pub form: u16,
    pub attributes: u16,
    pub detail: u16,
    pub operands: [u16; 2],
    pub symbol: u16,
}

/// The node with a number from 1 on.
pub fn node(cells: &[u16], number: u16) -> Node {
    let cells = &cells[NODE_CELLS * (number as usize - 1)..][..NODE_CELLS];
    Node {
        form: cells[FORM],
        attributes: cells[ATTRIBUTES],
        detail: cells[DETAIL],
        operands: [cells[FIRST], cells[SECOND]],
        symbol: cells[SYMBOL],
    }
}

/// Makes all symbols of a table 0.
pub fn erase(cells: &mut [u16]) {
    cells.iter_mut().skip(SYMBOL).step_by(NODE_CELLS).for_each(|symbol| *symbol = 0);
}

/// The class of a node of an accepted table.
pub fn class(cells: &[u16], number: u16) -> Class {
    forms::class(node(cells, number).form).expect("a form of document 01")
}

/// Reads a tree file. Refused are the files that document 01 refuses by 1, 2 and
/// 5, and by 3 and 4 for its header; see [`crate::accept`] for the other refusals.
pub fn read(file: &[u8]) -> Result<NodeTable, u16> {
    if file.len() > MOST_FILE_BYTES {
        return Err(1);
    }
    let mut at = 0;
    let context = number(file, &mut at).ok_or(2u16)?;
    let count = number(file, &mut at).ok_or(2u16)?;
    if context > LAST_CONTEXT {
        return Err(3);
    }
    if !(1..=MOST_NODES).contains(&usize::from(count)) {
        return Err(4);
    }
    let length = NODE_CELLS * usize::from(count);
    let mut cells = Vec::with_capacity(length);
    for _ in 0..length {
        cells.push(number(file, &mut at).ok_or(5u16)?);
    }
    if at < file.len() {
        return Err(5);
    }
    Ok(NodeTable { context, count, cells })
}

/// One number of a tree file, none if it is malformed.
fn number(file: &[u8], at: &mut usize) -> Option<u16> {
    let mut value = 0u32;
    for group in 0.. {
        let byte = *file.get(*at)?;
        *at += 1;
        value |= u32::from(byte & 0x7F) << (7 * group);
        if value > 65_535 || group > 2 {
            return None;
        }
        if byte < 0x80 {
            return if byte == 0 && group > 0 { None } else { Some(value as u16) };
        }
    }
    None
}

/// Writes a tree file.
pub fn write(table: &NodeTable) -> Vec<u8> {
    numbers([table.context, table.count].iter().chain(&table.cells))
}

/// Numbers as a tree file holds them.
pub fn numbers<'a>(numbers: impl IntoIterator<Item = &'a u16>) -> Vec<u8> {
    numbers.into_iter().flat_map(|&number| groups(number.into())).collect()
}

/// The bytes of a number: groups of seven bits, the lowest first.
pub fn groups(mut number: u32) -> Vec<u8> {
    let mut bytes = Vec::new();
    while number > 0x7F {
        bytes.push(number as u8 | 0x80);
        number >>= 7;
    }
    bytes.push(number as u8);
    bytes
}
