//! Rows, put together while expr.rs prints.
//!
//! expr.rs enters an expression through `expr`, `expr_beginning_of_line`,
//! `prefix_subexpr` or `subexpr`. Each of them tells the recorder, and the three
//! latter may hand the same expression on to `expr`. The first entry of a node
//! gives the context that was handed down. An opening parenthesis straight after
//! an entry is the node's outer pair. One straight after the attributes of an
//! Assign, Binary, Cast or Range is the inner pair.

use crate::fixup::FixupContext;
use model::forms::Side;
use std::rc::Rc;
use syn::Expr;

/// A row of document 01.
#[derive(Copy, Clone, PartialEq, Eq, Debug, Default)]
pub struct Row {
    pub pair: u16,
    pub precedence: u16,
    pub previous: u16,
    pub next: u16,
    pub flags: u16,
}

impl Row {
    /// The five cells of a row.
    pub fn cells(&self) -> [u16; 5] {
        [self.pair, self.precedence, self.previous, self.next, self.flags]
    }
}

/// What was told last.
#[derive(Copy, Clone, PartialEq, Eq)]
enum Last {
    /// The entry of a node.
    Entry(u16),
    /// The outer pair of a node, straight after its entry.
    OuterPair(u16),
    /// The attributes of a node that has an inner pair, straight after either.
    Attributes(u16),
    Other,
}

/// What is known of a node that has been entered.
struct Met {
    row: Row,
    /// Whether the owner's grouping test or `parenthesize` asks for a pair.
    decided: bool,
    may_have_inner_pair: bool,
}

/// Gathers the rows of one tree.
pub struct Recorder {
    /// The sides of the nodes, from node 1 on.
    sides: Rc<[Side]>,
    met: Vec<Option<Met>>,
    last: Last,
    /// How many parentheses are open.
    open: u32,
}

impl Recorder {
    pub fn new(sides: Rc<[Side]>) -> Self {
        let met = sides.iter().map(|_| None).collect();
        Recorder { sides, met, last: Last::Other, open: 0 }
    }

    /// expr.rs enters an expression.
    pub fn entered(&mut self, expr: &Expr, needs_paren: bool, fixup: FixupContext) {
        let node = expr.node();
        match self.last {
            // The inside of a closed form, which our trees don't have.
            _ if node == 0 => self.last = Last::Other,
            Last::Entry(same) if same == node => {
                let handed = self.met(node).row;
                assert_eq!(fixup.numbers(), [handed.previous, handed.next, handed.flags]);
            }
            Last::OuterPair(same) if same == node => assert_eq!(fixup.numbers(), [0; 3]),
            _ => {
                self.meet(node, expr, needs_paren, fixup);
                self.last = Last::Entry(node);
            }
        }
    }

    fn meet(&mut self, node: u16, expr: &Expr, needs_paren: bool, fixup: FixupContext) {
        let precedence = match self.sides[node as usize - 1] {
            Side::Left => fixup.left_precedence(expr),
            Side::Right => fixup.rightmost_subexpression_precedence(expr),
            Side::Neither => fixup.own_precedence(expr),
        };
        let [previous, next, flags] = fixup.numbers();
        let met = Met {
            row: Row { pair: 0, precedence: precedence.number(), previous, next, flags },
            decided: needs_paren || fixup.parenthesize(expr),
            may_have_inner_pair: matches!(
                expr,
                Expr::Assign(_) | Expr::Binary(_) | Expr::Cast(_) | Expr::Range(_)
            ),
        };
        let before = self.met[node as usize - 1].replace(met);
        assert!(before.is_none(), "node {node} is printed twice");
    }

    fn met(&mut self, node: u16) -> &mut Met {
        self.met[node as usize - 1].as_mut().expect("a node that was entered")
    }

    /// expr.rs prints attributes, of which there may be none.
    pub fn attributes(&mut self) {
        let last = self.last;
        self.last = match last {
            Last::Entry(node) | Last::OuterPair(node) if self.met(node).may_have_inner_pair => {
                Last::Attributes(node)
            }
            _ => Last::Other,
        };
    }

    /// expr.rs prints an opening parenthesis.
    pub fn opening(&mut self) {
        self.open += 1;
        self.last = match self.last {
            Last::Entry(node) => {
                self.met(node).row.pair |= 1;
                Last::OuterPair(node)
            }
            Last::OuterPair(node) => panic!("node {node} has two outer pairs"),
            Last::Attributes(node) => {
                self.met(node).row.pair |= 2;
                Last::Other
            }
            Last::Other => Last::Other,
        };
    }

    /// expr.rs prints a closing parenthesis.
    pub fn closing(&mut self) {
        self.open = self.open.checked_sub(1).expect("a parenthesis that is open");
        self.last = Last::Other;
    }

    /// expr.rs prints anything else.
    pub fn other(&mut self) {
        self.last = Last::Other;
    }

    /// The rows, from node 1 on; none for a node that was not met.
    pub fn rows(self) -> Vec<Option<Row>> {
        assert_eq!(self.open, 0, "open parentheses at the end");
        let row = |(met, node): (Option<Met>, u16)| {
            let met = met?;
            assert_eq!(met.row.pair & 1 == 1, met.decided, "the outer pair of node {node}");
            Some(met.row)
        };
        self.met.into_iter().zip(1..).map(row).collect()
    }
}
