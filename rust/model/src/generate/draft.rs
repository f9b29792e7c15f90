//! Trees whose nodes have no numbers yet.

use super::dice::Dice;
use crate::forms::*;
use crate::sizes::NODE_CELLS;
use crate::table::{node, Node, NodeTable};

/// Form, attributes, detail and symbol of a node.
#[derive(Copy, Clone, PartialEq, Eq, Debug)]
pub struct Label {
    pub form: u16,
    pub attributes: u16,
    pub detail: u16,
    pub symbol: u16,
}

impl Label {
    /// Without a symbol.
    pub const fn new(form: u16, attributes: u16, detail: u16) -> Self {
        Label { form, attributes, detail, symbol: 0 }
    }

    /// A form without attributes and with detail 0, or for a path type 1.
    pub const fn of(form: u16) -> Self {
        Label::new(form, 0, if form == TYPE_PATH { 1 } else { 0 })
    }
}

/// A node with the places of its operands in the draft.
#[derive(Copy, Clone, Debug)]
pub struct DraftNode {
    pub label: Label,
    pub operands: [Option<usize>; 2],
}

/// Nodes, the root first and owners before their operands.
#[derive(Clone, Debug, Default)]
pub struct Draft {
    pub nodes: Vec<DraftNode>,
}

/// A place for an operand of a node in a draft.
#[derive(Copy, Clone, Debug)]
pub struct Slot {
    pub owner: usize,
    pub place: usize,
}

/// How nodes are numbered. Owners always come before their operands.
#[derive(Copy, Clone, PartialEq, Eq, Debug)]
pub enum Order {
    /// The first operand's nodes before the second's.
    Printing,
    /// The second operand's nodes before the first's.
    Mirrored,
    /// Level by level.
    Breadth,
    Random,
}

impl Order {
    /// Mostly random.
    pub fn any(dice: &mut Dice) -> Self {
        let orders = [Order::Printing, Order::Mirrored, Order::Breadth, Order::Random];
        if dice.percent(70) {
            Order::Random
        } else {
            dice.pick(&orders)
        }
    }
}

impl Draft {
    /// A draft with its root.
    pub fn new(root: Label) -> Self {
        Draft { nodes: vec![DraftNode { label: root, operands: [None, None] }] }
    }

    /// The draft of an accepted table.
    pub fn of(table: &NodeTable) -> Self {
        let operand = |number: u16| usize::from(number).checked_sub(1);
        let nodes = (1..=table.count).map(|number| {
            let Node { form, attributes, detail, operands, symbol } = node(&table.cells, number);
            let label = Label { form, attributes, detail, symbol };
            DraftNode { label, operands: operands.map(operand) }
        });
        Draft { nodes: nodes.collect() }
    }

    /// Puts a node into a place and gives its position.
    pub fn put(&mut self, slot: Slot, label: Label) -> usize {
        let at = self.nodes.len();
        self.nodes.push(DraftNode { label, operands: [None, None] });
        self.nodes[slot.owner].operands[slot.place] = Some(at);
        at
    }

    /// The node table with the nodes numbered in some order.
    pub fn number(&self, context: u16, order: Order, dice: &mut Dice) -> NodeTable {
        let mut numbers = vec![0u16; self.nodes.len()];
        let mut met = Vec::with_capacity(self.nodes.len());
        let mut waiting = std::collections::VecDeque::from([0usize]);
        while !waiting.is_empty() {
            let at = match order {
                Order::Breadth => waiting.pop_front(),
                Order::Printing | Order::Mirrored => waiting.pop_back(),
                Order::Random => waiting.swap_remove_back(dice.below(waiting.len())),
            };
            let at = at.expect("some node waits");
            met.push(at);
            numbers[at] = met.len() as u16;
            let [first, second] = self.nodes[at].operands;
            let operands = match order {
                Order::Printing => [second, first],
                _ => [first, second],
            };
            waiting.extend(operands.into_iter().flatten());
        }
        let mut cells = Vec::with_capacity(NODE_CELLS * met.len());
        for &at in &met {
            let DraftNode { label, operands } = self.nodes[at];
            cells.extend([label.form, label.attributes, label.detail]);
            cells.extend(operands.map(|operand| operand.map_or(0, |operand| numbers[operand])));
            cells.push(label.symbol);
        }
        NodeTable { context, count: met.len() as u16, cells }
    }
}
