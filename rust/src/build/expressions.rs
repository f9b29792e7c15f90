//! A function for each form of an expression; those that stand behind their operand are
//! methods.

use super::{Delimiter, Ending, Expr, Form, Label, Limits, Mutability, Op, Part, Type, UnaryOp};
use crate::Node;

/// A form without operands: what stands in it is a tree of its own.
fn closed(form: Form, detail: u16) -> Expr {
    Expr(Part::leaf(form.number(), detail, 0))
}

/// A form over what stands in its two places.
fn over(form: Form, detail: u16, symbol: u16, operands: [Option<Part>; 2]) -> Expr {
    let label = Node { form: form.number(), detail, symbol, ..Node::default() };
    Expr(Part::new(label, operands))
}

/// A form over one expression.
fn over_one(form: Form, detail: u16, operand: Expr) -> Expr {
    over(form, detail, 0, [Some(operand.0), None])
}

/// A form over an expression that may be left out.
fn over_any(form: Form, detail: u16, operand: Option<Expr>) -> Expr {
    over(form, detail, 0, [operand.map(|operand| operand.0), None])
}

fn arguments(arguments: impl IntoIterator<Item = Expr>) -> Option<Part> {
    Part::list(arguments.into_iter().map(|argument| argument.0))
}

/// `[..]`
pub fn array() -> Expr {
    closed(Form::Array, 0)
}

/// `left = right`; the assigning operators are [`binary`]'s.
pub fn assign(left: Expr, right: Expr) -> Expr {
    over(Form::Assign, 0, 0, [Some(left.0), Some(right.0)])
}

/// `async { .. }`
pub fn async_() -> Expr {
    closed(Form::Async, 0)
}

/// `left - right`, by the operator.
pub fn binary(operator: Op, left: Expr, right: Expr) -> Expr {
    over(Form::Binary, operator.number(), 0, [Some(left.0), Some(right.0)])
}

/// `{ .. }`
pub fn block(label: Label) -> Expr {
    closed(Form::Block, label.number())
}

/// `break`, with a label and a value where these are written.
pub fn break_(label: Label, value: Option<Expr>) -> Expr {
    over_any(Form::Break, label.number(), value)
}

/// `callee(..)`; a named field that is called gets the pair that keeps it from being a method.
pub fn call(callee: Expr, args: impl IntoIterator<Item = Expr>) -> Expr {
    over(Form::Call, 0, 0, [Some(callee.0), arguments(args)])
}

/// `operand as ty`
pub fn cast(operand: Expr, ty: Type) -> Expr {
    over(Form::Cast, 0, 0, [Some(operand.0), Some(ty.0)])
}

/// `|..| body`
pub fn closure(body: Expr) -> Expr {
    over_one(Form::Closure, 0, body)
}

/// `|..| -> .. body`: the body must be a block without attributes and label.
///
/// ```
/// use tezhukor::build::{block, closure_with_output, path, Context, Label, Unbuilt};
/// assert!(closure_with_output(block(Label::None)).tree(Context::None).is_ok());
/// let other = closure_with_output(path(1)).tree(Context::None);
/// assert_eq!(other, Err(Unbuilt::ClosureBody));
/// ```
pub fn closure_with_output(body: Expr) -> Expr {
    over_one(Form::Closure, 1, body)
}

/// `const { .. }`
pub fn const_() -> Expr {
    closed(Form::Const, 0)
}

/// `continue`, with or without a label, which changes nothing.
pub fn continue_() -> Expr {
    closed(Form::Continue, 0)
}

/// `for .. in .. { .. }`
pub fn for_loop(label: Label) -> Expr {
    closed(Form::ForLoop, label.number())
}

/// An expression between invisible delimiters.
pub fn group(operand: Expr) -> Expr {
    over_one(Form::Group, 0, operand)
}

/// `if .. { .. }`
pub fn if_() -> Expr {
    closed(Form::If, 0)
}

/// `_`
pub fn infer() -> Expr {
    closed(Form::Infer, 0)
}

/// `let .. = operand`
pub fn let_(operand: Expr) -> Expr {
    over_one(Form::Let, 0, operand)
}

/// A literal, by its symbol.
pub fn lit(symbol: u16) -> Expr {
    over(Form::Lit, 0, symbol, [None, None])
}

/// `loop { .. }`
pub fn loop_(label: Label) -> Expr {
    closed(Form::Loop, label.number())
}

/// `m!(..)`
pub fn macro_call(delimiter: Delimiter) -> Expr {
    closed(Form::Macro, delimiter.number())
}

/// `match .. { .. }`
pub fn match_() -> Expr {
    closed(Form::Match, 0)
}

/// `(operand)`: the parentheses are the tree's own, and never needed.
pub fn paren(operand: Expr) -> Expr {
    over_one(Form::Paren, 0, operand)
}

/// A name or a path, by its symbol.
pub fn path(symbol: u16) -> Expr {
    over(Form::Path, 0, symbol, [None, None])
}

/// `start..end`, each end where it is written.
pub fn range(limits: Limits, start: Option<Expr>, end: Option<Expr>) -> Expr {
    over(Form::Range, limits.number(), 0, [start, end].map(|end| Some(end?.0)))
}

/// `&raw const operand` or `&raw mut operand`
pub fn raw_addr(mutability: Mutability, operand: Expr) -> Expr {
    over_one(Form::RawAddr, mutability.number(), operand)
}

/// `&operand` or `&mut operand`
pub fn reference(mutability: Mutability, operand: Expr) -> Expr {
    over_one(Form::Reference, mutability.number(), operand)
}

/// `[..; ..]`
pub fn repeat() -> Expr {
    closed(Form::Repeat, 0)
}

/// `return`, with its value where one is written.
pub fn return_(value: Option<Expr>) -> Expr {
    over_any(Form::Return, 0, value)
}

/// `S { .. }`
pub fn struct_() -> Expr {
    closed(Form::Struct, 0)
}

/// `try { .. }`
pub fn try_block() -> Expr {
    closed(Form::TryBlock, 0)
}

/// `(.., ..)`
pub fn tuple() -> Expr {
    closed(Form::Tuple, 0)
}

/// `-operand`, by the operator.
pub fn unary(operator: UnaryOp, operand: Expr) -> Expr {
    over_one(Form::Unary, operator.number(), operand)
}

/// `unsafe { .. }`
pub fn unsafe_() -> Expr {
    closed(Form::Unsafe, 0)
}

/// Tokens that are not looked at.
pub fn verbatim(ending: Ending) -> Expr {
    closed(Form::Verbatim, ending.number())
}

/// `while .. { .. }`
pub fn while_(label: Label) -> Expr {
    closed(Form::While, label.number())
}

/// `yield`, with its value where one is written.
pub fn yield_(value: Option<Expr>) -> Expr {
    over_any(Form::Yield, 0, value)
}

impl Expr {
    /// `self.await`
    pub fn awaited(self) -> Expr {
        over_one(Form::Await, 0, self)
    }

    /// `self as ty`, as [`cast`].
    pub fn cast(self, ty: Type) -> Expr {
        cast(self, ty)
    }

    /// `self.name`
    pub fn field(self, symbol: u16) -> Expr {
        over(Form::Field, 0, symbol, [Some(self.0), None])
    }

    /// `self.0`, by the number's symbol.
    pub fn member(self, symbol: u16) -> Expr {
        over(Form::Field, 1, symbol, [Some(self.0), None])
    }

    /// `self[index]`
    pub fn index(self, index: Expr) -> Expr {
        over(Form::Index, 0, 0, [Some(self.0), Some(index.0)])
    }

    /// `self.name(..)`
    pub fn method_call(self, symbol: u16, args: impl IntoIterator<Item = Expr>) -> Expr {
        over(Form::MethodCall, 0, symbol, [Some(self.0), arguments(args)])
    }

    /// `self?`
    pub fn question(self) -> Expr {
        over_one(Form::Try, 0, self)
    }
}
