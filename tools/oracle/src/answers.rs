//! What prettyplease's files answer about the nodes of an accepted tree.

use crate::classify;
#[cfg(feature = "kept_scans")]
use crate::direct::context_of_root;
use crate::direct::Context;
use crate::fixup::FixupContext;
use crate::precedence::Precedence;
use crate::recorder::{Recorder, Row};
use crate::stand_in::algorithm::Printer;
use crate::tree::{self, Built};
use model::forms::{self, Side};
#[cfg(feature = "kept_scans")]
use model::generate::{levels, Draft, LONGEST_NEST};
#[cfg(feature = "kept_scans")]
use model::NodeTable;
use model::{table, CalleeOrder};
use std::rc::Rc;
use syn::{Expr, ExprCast, Type, TypeInfer};

/// The answers for one node.
#[derive(Copy, Clone, PartialEq, Eq, Debug)]
pub enum NodeAnswers {
    Expression(ExpressionAnswers),
    Type(TypeAnswers),
    Link,
}

/// The answers for an expression.
#[derive(Copy, Clone, PartialEq, Eq, Debug)]
pub struct ExpressionAnswers {
    pub requires_semi_to_be_stmt: bool,
    pub requires_comma_to_be_match_arm: bool,
    pub expr_leading_label: bool,
    pub expr_trailing_brace: bool,
    /// `Precedence::of`, from 0 to 15.
    pub precedence_of: u16,
    pub row: Row,
}

/// The answers for a type.
#[derive(Copy, Clone, PartialEq, Eq, Debug)]
pub struct TypeAnswers {
    pub trailing_unparameterized_path: bool,
    pub type_trailing_brace: bool,
}

/// The answers for all nodes of a tree.
#[derive(Clone, PartialEq, Eq, Debug)]
pub struct Answers {
    /// From node 1 on.
    pub nodes: Vec<NodeAnswers>,
}

impl Answers {
    /// The row of a node; zeros for types and links.
    pub fn row(&self, node: u16) -> Row {
        match self.nodes[node as usize - 1] {
            NodeAnswers::Expression(answers) => answers.row,
            _ => Row::default(),
        }
    }

    /// Five cells a node, as the walk fills them.
    pub fn rows(&self) -> Vec<u16> {
        (1..=self.nodes.len() as u16).flat_map(|node| self.row(node).cells()).collect()
    }
}

/// All answers for an accepted tree, its rows in the crate's callee order.
pub fn answers(context: u16, count: u16, cells: &[u16]) -> Answers {
    answers_by(CalleeOrder::Crate, context, count, cells)
}

/// All answers for an accepted tree, its rows in one of the callee orders.
pub fn answers_by(order: CalleeOrder, context: u16, count: u16, cells: &[u16]) -> Answers {
    let mut nodes = vec![NodeAnswers::Link; count as usize];
    let root = tree::build(cells, count, 1, |node, built| {
        nodes[node as usize - 1] = match built {
            Built::Expr(expr) => NodeAnswers::Expression(of_expression(expr)),
            Built::Type(ty) => NodeAnswers::Type(of_type(ty)),
            Built::Exprs(_) | Built::Types(_) => NodeAnswers::Link,
        };
    });
    let Built::Expr(root) = root else {
        panic!("the root is no expression");
    };
    let rows = printed(&root, order, FixupContext::of_root(context), sides(count, cells).into());
    for (at, row) in rows.into_iter().enumerate() {
        match (&mut nodes[at], row) {
            (NodeAnswers::Expression(answers), Some(row)) => answers.row = row,
            (NodeAnswers::Expression(_), None) => panic!("node {} is not printed", at + 1),
            (_, Some(_)) => panic!("node {} is no expression", at + 1),
            (_, None) => {}
        }
    }
    Answers { nodes }
}

/// The rows of an accepted tree, from node 1 on, for roots in contexts of any
/// content, in the crate's callee order; zeros for types and links.
pub fn rows(contexts: &[Context], count: u16, cells: &[u16]) -> Vec<Vec<Row>> {
    BuiltTree::new(count, cells).rows(CalleeOrder::Crate, contexts)
}

/// The rows of an accepted tree in its own context and in one of the callee orders, five cells
/// a node; scan_right's answers are kept where a nest is long.
#[cfg(feature = "kept_scans")]
pub fn rows_of(tree: &NodeTable, order: CalleeOrder) -> Vec<u16> {
    let ask = || {
        let built = BuiltTree::new(tree.count, &tree.cells);
        built.rows(order, &[context_of_root(tree.context)])
    };
    let rows = match levels(&Draft::of(tree)) <= LONGEST_NEST {
        true => ask(),
        false => crate::keeping(ask),
    };
    rows[0].iter().flat_map(|row| row.cells()).collect()
}

/// An accepted tree that is built once and printed many times.
pub struct BuiltTree {
    root: Expr,
    sides: Rc<[Side]>,
}

impl BuiltTree {
    pub fn new(count: u16, cells: &[u16]) -> Self {
        let root = tree::expression(cells, count, 1);
        BuiltTree { root, sides: sides(count, cells).into() }
    }

    /// The rows, from node 1 on, for a root in a context of any content; none for
    /// types and links.
    pub fn printed(&self, order: CalleeOrder, context: Context) -> Vec<Option<Row>> {
        printed(&self.root, order, FixupContext::from_numbers(context), self.sides.clone())
    }

    /// The same for roots in some contexts, with zeros for types and links.
    pub fn rows(&self, order: CalleeOrder, contexts: &[Context]) -> Vec<Vec<Row>> {
        let printed = contexts.iter().map(|&context| self.printed(order, context));
        printed.map(|rows| rows.into_iter().map(Option::unwrap_or_default).collect()).collect()
    }

    /// Prints in the crate's callee order and records nothing.
    pub fn only_printed(&self, context: Context) {
        let context = FixupContext::from_numbers(context);
        Printer { recorder: None, order: CalleeOrder::Crate }.expr(&self.root, context);
    }
}

/// What is recorded while the crate prints the root; none for a node that it
/// does not print.
fn printed(
    root: &Expr,
    order: CalleeOrder,
    context: FixupContext,
    sides: Rc<[Side]>,
) -> Vec<Option<Row>> {
    let mut printer = Printer { recorder: Some(Recorder::new(sides)), order };
    printer.expr(root, context);
    printer.recorder.expect("the recorder just given").rows()
}

/// The sides of all nodes, from node 1 on.
fn sides(count: u16, cells: &[u16]) -> Vec<Side> {
    let mut sides = vec![Side::Neither; count as usize];
    for number in 1..=count {
        let node = table::node(cells, number);
        for (place, &operand) in node.operands.iter().enumerate() {
            if operand != 0 {
                sides[operand as usize - 1] = forms::side(node.form, place);
            }
        }
    }
    sides
}

/// What can be asked of an expression without a context. The row comes later.
fn of_expression(expr: &Expr) -> ExpressionAnswers {
    ExpressionAnswers {
        requires_semi_to_be_stmt: classify::requires_semi_to_be_stmt(expr),
        requires_comma_to_be_match_arm: classify::requires_comma_to_be_match_arm(expr),
        expr_leading_label: classify::expr_leading_label(expr),
        expr_trailing_brace: classify::expr_trailing_brace(expr),
        precedence_of: Precedence::of(expr).number(),
        row: Row::default(),
    }
}

/// type_trailing_brace is nested in expr_trailing_brace, which asks it about the
/// type of a Cast.
fn of_type(ty: &mut Type) -> TypeAnswers {
    let trailing_unparameterized_path = classify::trailing_unparameterized_path(ty);
    let taken = std::mem::replace(ty, Type::Infer(TypeInfer));
    let cast = Expr::Cast(ExprCast {
        node: 0,
        attrs: Vec::new(),
        expr: tree::inside(),
        ty: Box::new(taken),
    });
    let type_trailing_brace = classify::expr_trailing_brace(&cast);
    if let Expr::Cast(cast) = cast {
        *ty = *cast.ty;
    }
    TypeAnswers { trailing_unparameterized_path, type_trailing_brace }
}
