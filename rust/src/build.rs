//! Trees that are put together by functions, without node numbers.
//!
//! ```
//! use tezhukor::build::{binary, lit, path, ty, Context, Op};
//! use tezhukor::text::{Names, Text};
//! # fn main() -> Result<(), tezhukor::build::Unbuilt> {
//! // ring.advance(depth as f64 * 0.5)
//! let [ring, advance, depth, float, half] = [1, 2, 3, 4, 5];
//! let stroke = binary(Op::Mul, path(depth).cast(ty::path(float)), lit(half));
//! let tree = path(ring).method_call(advance, [stroke]).tree(Context::None)?;
//! let names = Names::new("ring\nadvance\ndepth\nf64\n0.5");
//! let text = Text::new(&tree, &tree.rows(), &names);
//! assert_eq!(text.as_str(), "ring.advance(depth as f64 * 0.5)");
//! # Ok(())
//! # }
//! ```
//!
//! There is a function for each of the 40 forms, here or as a method of [`Expr`], and for
//! each of the 15 types in [`ty`]. They take what the form may have, and nothing else: of
//! the refusals of a tree only [`Unbuilt`]'s are left. The nodes are numbered as in the
//! tree's file, from the root on.
//!
//! A part that is used twice is cloned. A part of more nodes than a tree may have is counted
//! and no longer kept, so that nothing that is built takes more room than a tree.

mod expressions;
mod labels;
pub mod ty;

pub use expressions::*;
pub use labels::*;
pub use ty::Type;

use crate::{Node, Refusal, Tree};
use model::forms::{LINK, VERBATIM};
use model::sizes::MOST_NODES;
use std::fmt;

/// An expression.
#[derive(Clone, Debug)]
pub struct Expr(Part);

impl Expr {
    /// The tree of the expression in a context.
    ///
    /// ```
    /// use tezhukor::build::{binary, path, struct_, Context, Op};
    /// // reading == Limit { .. }, which needs a pair where a block follows.
    /// let rule = binary(Op::Eq, path(1), struct_());
    /// let pairs = |context| {
    ///     let rows = rule.tree(context).map(|tree| tree.rows());
    ///     rows.map(|rows| rows.iter().filter(|row| row.has_outer_pair()).count())
    /// };
    /// assert_eq!(pairs(Context::None), Ok(0));
    /// assert_eq!(pairs(Context::Condition), Ok(1));
    /// ```
    pub fn tree(&self, context: Context) -> Result<Tree, Unbuilt> {
        if self.0.count > MOST_NODES {
            return Err(Unbuilt::Size);
        }
        Tree::new(context.number(), &self.0.numbered()).map_err(Unbuilt::of)
    }

    /// The expression with attributes, in place of those that it has. A Verbatim's are part
    /// of what it holds: it stays as it is.
    pub fn with_attributes(mut self, attributes: Attributes) -> Expr {
        if let Some(root) = self.0.reversed.last_mut().filter(|root| root.form != VERBATIM) {
            root.attributes = attributes.number();
        }
        self
    }
}

/// The expression that a tree is, its context left aside.
impl From<&Tree> for Expr {
    fn from(tree: &Tree) -> Expr {
        let tree = tree.canonical();
        let numbered = (1..=tree.count()).filter_map(|number| Some((number, tree.node(number)?)));
        let mut reversed: Vec<Node> = numbered
            .map(|(number, node)| Node {
                first: node.first.saturating_sub(number),
                second: node.second.saturating_sub(number),
                ..node
            })
            .collect();
        reversed.reverse();
        Expr(Part { count: reversed.len(), reversed })
    }
}

/// Why an expression is no tree: all that is left of the refusals of a tree, the first by
/// number.
#[derive(Copy, Clone, PartialEq, Eq, PartialOrd, Ord, Hash, Debug)]
pub enum Unbuilt {
    /// It has more than 4,096 nodes, the links of its lists included: [`Refusal::Count`].
    Size,
    /// A closure with a written output has a body that is no bare block:
    /// [`Refusal::ClosureBody`].
    ClosureBody,
    /// A path holds more than 128 nodes, links not counted: [`Refusal::Depth`].
    Depth,
}

impl Unbuilt {
    pub const ALL: [Unbuilt; 3] = [Unbuilt::Size, Unbuilt::ClosureBody, Unbuilt::Depth];

    /// The refusal that the tree would meet.
    pub fn refusal(self) -> Refusal {
        match self {
            Unbuilt::Size => Refusal::Count,
            Unbuilt::ClosureBody => Refusal::ClosureBody,
            Unbuilt::Depth => Refusal::Depth,
        }
    }

    /// Of what the library refuses, which is one of these: labels, operands and numbers are
    /// those that the functions of this module give.
    fn of(refusal: Refusal) -> Unbuilt {
        let is_it = |unbuilt: &Unbuilt| unbuilt.refusal() == refusal;
        let found = Unbuilt::ALL.into_iter().find(is_it);
        found.unwrap_or_else(|| unreachable!("what is built was refused by {refusal:?}"))
    }
}

impl From<Unbuilt> for Refusal {
    fn from(unbuilt: Unbuilt) -> Refusal {
        unbuilt.refusal()
    }
}

impl fmt::Display for Unbuilt {
    fn fmt(&self, f: &mut fmt::Formatter) -> fmt::Result {
        self.refusal().fmt(f)
    }
}

impl std::error::Error for Unbuilt {}

/// A node and all under it, the last node as printed first: so the nodes of an owner come
/// behind those of its operands, and those of a list's first item last. Operands are told by
/// how far behind their owner they are printed.
#[derive(Clone, Default, Debug)]
struct Part {
    /// How many nodes there are, at most the largest number.
    count: usize,
    /// None of them where they are too many.
    reversed: Vec<Node>,
}

impl Part {
    /// A node without operands.
    fn leaf(form: u16, detail: u16, symbol: u16) -> Part {
        Part::new(Node { form, detail, symbol, ..Node::default() }, [None, None])
    }

    /// A node over its operands.
    fn new(label: Node, operands: [Option<Part>; 2]) -> Part {
        let [has_first, has_second] = operands.each_ref().map(Option::is_some);
        let [first, second] = operands.map(Option::unwrap_or_default);
        let count = first.count.saturating_add(second.count).saturating_add(1);
        if count > MOST_NODES {
            return Part { count, reversed: Vec::new() };
        }
        let behind = |is_there: bool, nodes: usize| if is_there { 1 + nodes as u16 } else { 0 };
        let root =
            Node { first: behind(has_first, 0), second: behind(has_second, first.count), ..label };
        let mut reversed = second.reversed;
        reversed.extend(first.reversed);
        reversed.push(root);
        Part { count, reversed }
    }

    /// The links of a list, nothing for an empty one.
    fn list(items: impl IntoIterator<Item = Part>) -> Option<Part> {
        let link = Node { form: LINK, ..Node::default() };
        let items: Vec<Part> = items.into_iter().collect();
        items.into_iter().rev().fold(None, |next, item| Some(Part::new(link, [Some(item), next])))
    }

    /// The nodes, numbered as they are printed.
    fn numbered(&self) -> Vec<Node> {
        let place = |number: u16, behind: u16| if behind == 0 { 0 } else { number + behind };
        let nodes = (1..).zip(self.reversed.iter().rev()).map(|(number, node)| Node {
            first: place(number, node.first),
            second: place(number, node.second),
            ..*node
        });
        nodes.collect()
    }
}
