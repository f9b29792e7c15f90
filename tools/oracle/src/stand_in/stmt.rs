//! Stand-in for stmt.rs. Both questions are about layout only.

use syn::Expr;

pub fn add_semi(_expr: &Expr) -> bool {
    false
}

pub fn break_after(_expr: &Expr) -> bool {
    true
}
