//! What our test of a callee asks beside the crate's (document 02, Paper 9).

use syn::{Expr, ExprField, Member};

/// Whether the first thing from here down that is no Group is a named Field.
pub fn is_named_field(mut expr: &Expr) -> bool {
    while let Expr::Group(group) = expr {
        expr = &group.expr;
    }
    matches!(expr, Expr::Field(ExprField { member: Member::Named(_), .. }))
}
