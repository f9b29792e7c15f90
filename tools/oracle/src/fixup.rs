//! prettyplease's fixup.rs. What stands behind it reaches its private parts.

include!(concat!(env!("OUT_DIR"), "/fixup.rs"));

#[cfg(feature = "kept_scans")]
mod kept;
#[cfg(feature = "kept_scans")]
pub use kept::keeping;
#[cfg(feature = "kept_scans")]
use kept::scan_right;

impl FixupContext {
    /// The context that a tree's root gets, by document 01's number for it.
    pub(crate) fn of_root(context: u16) -> Self {
        match context {
            0 => FixupContext::NONE,
            1 => FixupContext::new_stmt(),
            2 => FixupContext::new_match_arm(),
            3 => FixupContext::new_condition(),
            _ => panic!("no such context: {context}"),
        }
    }

    /// Previous operator, next operator, flags: bit 0 up in source order.
    pub(crate) fn numbers(self) -> [u16; 3] {
        let flags = [
            self.stmt,
            self.leftmost_subexpression_in_stmt,
            self.match_arm,
            self.leftmost_subexpression_in_match_arm,
            self.condition,
            self.rightmost_subexpression_in_condition,
            self.leftmost_subexpression_in_optional_operand,
            self.next_operator_can_begin_expr,
            self.next_operator_can_continue_expr,
            self.next_operator_can_begin_generics,
        ];
        let flags = flags.iter().rev().fold(0, |bits, &flag| 2 * bits + u16::from(flag));
        [self.previous_operator.number(), self.next_operator.number(), flags]
    }

    /// The context with these numbers, reachable or not.
    pub(crate) fn from_numbers([previous, next, flags]: [u16; 3]) -> Self {
        let flag = |bit: u16| flags >> bit & 1 == 1;
        FixupContext {
            previous_operator: Precedence::from_number(previous),
            next_operator: Precedence::from_number(next),
            stmt: flag(0),
            leftmost_subexpression_in_stmt: flag(1),
            match_arm: flag(2),
            leftmost_subexpression_in_match_arm: flag(3),
            condition: flag(4),
            rightmost_subexpression_in_condition: flag(5),
            leftmost_subexpression_in_optional_operand: flag(6),
            next_operator_can_begin_expr: flag(7),
            next_operator_can_continue_expr: flag(8),
            next_operator_can_begin_generics: flag(9),
        }
    }

    /// The private `precedence`.
    pub(crate) fn own_precedence(self, expr: &Expr) -> Precedence {
        self.precedence(expr)
    }

    /// The private `leftmost_subexpression_precedence`.
    pub(crate) fn left_precedence(self, expr: &Expr) -> Precedence {
        self.leftmost_subexpression_precedence(expr)
    }
}

/// The private `scan_left`.
pub(crate) fn ask_scan_left(expr: &Expr, fixup: FixupContext) -> bool {
    scan_left(expr, fixup)
}

/// The private `scan_right`: 0 Fail, 1 Bailout, 2 Consume.
pub(crate) fn ask_scan_right(
    expr: &Expr,
    fixup: FixupContext,
    precedence: Precedence,
    fail_offset: u8,
    bailout_offset: u8,
) -> u8 {
    scan_right(expr, fixup, precedence, fail_offset, bailout_offset) as u8
}
