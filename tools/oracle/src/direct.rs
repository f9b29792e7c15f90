//! prettyplease's functions asked one at a time, with contexts, precedences and
//! offsets of any content, reachable or not.

use crate::fixup::{ask_scan_left, ask_scan_right, FixupContext};
use crate::precedence::Precedence;
use crate::tree::{self, Built};
use syn::Expr;

/// A context as previous operator (0 to 15), next operator (0 to 15) and flags
/// (bits 0 to 9, the ten booleans in source order).
pub type Context = [u16; 3];

/// The context that a root gets in document 01's contexts 0 to 3.
pub fn context_of_root(context: u16) -> Context {
    FixupContext::of_root(context).numbers()
}

/// `rightmost_subexpression_fixup`.
pub fn rightmost_context(
    context: Context,
    reset_allow_struct: bool,
    optional_operand: bool,
    precedence: u16,
) -> Context {
    FixupContext::from_numbers(context)
        .rightmost_subexpression_fixup(
            reset_allow_struct,
            optional_operand,
            Precedence::from_number(precedence),
        )
        .numbers()
}

/// `Precedence::of_binop` of the operator with a number from 0 to 27.
pub fn precedence_of_operator(operator: u16) -> u16 {
    Precedence::of_binop(&tree::binary_operator(operator)).number()
}

/// An expression that can be asked many times.
pub struct Subject(Expr);

impl Subject {
    /// A node of an accepted tree and all under it.
    pub fn new(cells: &[u16], count: u16, node: u16) -> Self {
        Subject(tree::expression(cells, count, node))
    }

    /// `scan_right`: 0 Fail, 1 Bailout, 2 Consume.
    pub fn scan_right(
        &self,
        context: Context,
        precedence: u16,
        fail_offset: u8,
        bailout_offset: u8,
    ) -> u8 {
        let precedence = Precedence::from_number(precedence);
        let fixup = FixupContext::from_numbers(context);
        ask_scan_right(&self.0, fixup, precedence, fail_offset, bailout_offset)
    }

    /// `scan_left`.
    pub fn scan_left(&self, context: Context) -> bool {
        ask_scan_left(&self.0, FixupContext::from_numbers(context))
    }

    /// `leftmost_subexpression_precedence`.
    pub fn leftmost_precedence(&self, context: Context) -> u16 {
        FixupContext::from_numbers(context).left_precedence(&self.0).number()
    }

    /// `rightmost_subexpression_precedence`.
    pub fn rightmost_precedence(&self, context: Context) -> u16 {
        FixupContext::from_numbers(context).rightmost_subexpression_precedence(&self.0).number()
    }

    /// FixupContext's `precedence`.
    pub fn precedence(&self, context: Context) -> u16 {
        FixupContext::from_numbers(context).own_precedence(&self.0).number()
    }

    /// `parenthesize`.
    pub fn parenthesize(&self, context: Context) -> bool {
        FixupContext::from_numbers(context).parenthesize(&self.0)
    }

    /// `leftmost_subexpression_with_operator`: the precedence and the context.
    pub fn leftmost_with_operator(
        &self,
        context: Context,
        can_begin_expr: bool,
        can_begin_generics: bool,
        precedence: u16,
    ) -> (u16, Context) {
        let (precedence, fixup) = FixupContext::from_numbers(context)
            .leftmost_subexpression_with_operator(
                &self.0,
                can_begin_expr,
                can_begin_generics,
                Precedence::from_number(precedence),
            );
        (precedence.number(), fixup.numbers())
    }

    /// `leftmost_subexpression_with_dot`: the precedence and the context.
    pub fn leftmost_with_dot(&self, context: Context) -> (u16, Context) {
        let fixup = FixupContext::from_numbers(context);
        let (precedence, fixup) = fixup.leftmost_subexpression_with_dot(&self.0);
        (precedence.number(), fixup.numbers())
    }

    /// `rightmost_subexpression`: the precedence and the context.
    pub fn rightmost(&self, context: Context, precedence: u16) -> (u16, Context) {
        let precedence = Precedence::from_number(precedence);
        let fixup = FixupContext::from_numbers(context);
        let (precedence, fixup) = fixup.rightmost_subexpression(&self.0, precedence);
        (precedence.number(), fixup.numbers())
    }
}

/// Shows each expression of an accepted tree, operands before their owners.
pub fn each_expression(cells: &[u16], count: u16, mut see: impl FnMut(u16, &Subject)) {
    tree::build(cells, count, 1, |node, built| {
        if let Built::Expr(expr) = built {
            let subject = Subject(std::mem::replace(expr, *tree::inside()));
            see(node, &subject);
            *expr = subject.0;
        }
    });
}

/// [`Subject::scan_right`] of a node.
pub fn scan_right_of(
    cells: &[u16],
    count: u16,
    node: u16,
    context: Context,
    precedence: u16,
    fail_offset: u8,
    bailout_offset: u8,
) -> u8 {
    let subject = Subject::new(cells, count, node);
    subject.scan_right(context, precedence, fail_offset, bailout_offset)
}

/// [`Subject::scan_left`] of a node.
pub fn scan_left_of(cells: &[u16], count: u16, node: u16, context: Context) -> bool {
    Subject::new(cells, count, node).scan_left(context)
}

/// [`Subject::leftmost_precedence`] of a node.
pub fn leftmost_precedence_of(cells: &[u16], count: u16, node: u16, context: Context) -> u16 {
    Subject::new(cells, count, node).leftmost_precedence(context)
}

/// [`Subject::rightmost_precedence`] of a node.
pub fn rightmost_precedence_of(cells: &[u16], count: u16, node: u16, context: Context) -> u16 {
    Subject::new(cells, count, node).rightmost_precedence(context)
}

/// [`Subject::precedence`] of a node.
pub fn precedence_of(cells: &[u16], count: u16, node: u16, context: Context) -> u16 {
    Subject::new(cells, count, node).precedence(context)
}

/// [`Subject::parenthesize`] of a node.
pub fn parenthesize_of(cells: &[u16], count: u16, node: u16, context: Context) -> bool {
    Subject::new(cells, count, node).parenthesize(context)
}
