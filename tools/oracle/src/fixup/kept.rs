//! scan_right with its answers kept. The crate asks it twice about an operand that
//! failed, so that its work doubles with each level of some nests. The build calls
//! the crate's own function `scan_anew`, and the crate's calls of scan_right come
//! here: a question that was met before gets the answer that it got.

use super::{scan_anew, FixupContext, Scan};
use crate::precedence::Precedence;
use std::cell::RefCell;
use std::collections::HashMap;
use syn::Expr;

/// Node, context, precedence, fail offset and bailout offset.
type Question = (u16, [u16; 3], u16, u8, u8);

thread_local! {
    /// The answers about the tree in hand, if they are kept.
    static KEPT: RefCell<Option<HashMap<Question, Scan>>> = const { RefCell::new(None) };
}

pub(super) fn scan_right(
    expr: &Expr,
    fixup: FixupContext,
    precedence: Precedence,
    fail_offset: u8,
    bailout_offset: u8,
) -> Scan {
    let anew = || scan_anew(expr, fixup, precedence, fail_offset, bailout_offset);
    if KEPT.with_borrow(Option::is_none) {
        return anew();
    }
    assert_ne!(expr.node(), 0, "the inside of a closed form");
    let question = (expr.node(), fixup.numbers(), precedence.number(), fail_offset, bailout_offset);
    if let Some(scan) = KEPT.with_borrow(|kept| kept.as_ref()?.get(&question).copied()) {
        return scan;
    }
    let scan = anew();
    KEPT.with_borrow_mut(|kept| kept.as_mut().map(|kept| kept.insert(question, scan)));
    scan
}

/// What is asked about one tree, with scan_right's answers kept meanwhile.
pub fn keeping<T>(ask: impl FnOnce() -> T) -> T {
    KEPT.set(Some(HashMap::new()));
    let asked = ask();
    KEPT.set(None);
    asked
}
