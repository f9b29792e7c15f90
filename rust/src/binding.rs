//! How operators bind.

use crate::boundary;
use model::sizes::{LAST_OPERATOR, LEVEL_UNIT, NO_OPERATOR};

/// Which way an operator leans: how a chain of operators of its level is read.
#[derive(Copy, Clone, PartialEq, Eq, Hash, Debug)]
pub enum Lean {
    /// From the left: `a - b - c` is `(a - b) - c`.
    Left,
    /// From the right: `a = b = c` is `a = (b = c)`.
    Right,
    /// Not at all: `a == b == c` has no reading.
    Neither,
}

/// How an operator binds its operands.
#[derive(Copy, Clone, PartialEq, Eq, Hash, Debug)]
pub struct Binding {
    /// From Jump 0 to Unambiguous 15, as a row's precedence.
    pub level: u16,
    pub lean: Lean,
}

impl Binding {
    /// The number of `=`, behind the operators of Binary.
    pub const ASSIGN: u16 = LAST_OPERATOR - 1;

    /// The number of a Range's operators.
    pub const RANGE: u16 = LAST_OPERATOR;

    /// That of an operator: 0 to 27 as in a Binary's detail, [`Binding::ASSIGN`] or
    /// [`Binding::RANGE`].
    ///
    /// ```
    /// use tezhukor::{Binding, Lean};
    /// assert_eq!(Binding::of(1), Some(Binding { level: 11, lean: Lean::Left }));
    /// assert_eq!(Binding::of(12), Some(Binding { level: 6, lean: Lean::Neither }));
    /// assert_eq!(Binding::of(Binding::ASSIGN), Some(Binding { level: 1, lean: Lean::Right }));
    /// assert_eq!(Binding::of(30), None);
    /// ```
    pub fn of(operator: u16) -> Option<Binding> {
        let binding = boundary::binding(operator);
        let lean = match binding % LEVEL_UNIT {
            _ if binding == NO_OPERATOR => return None,
            0 => Lean::Left,
            1 => Lean::Right,
            _ => Lean::Neither,
        };
        Some(Binding { level: binding / LEVEL_UNIT, lean })
    }
}
