//! The contexts that a root can have, by number.

/// An expression of its own: NONE.
pub const NONE: u16 = 0;

/// The beginning of a statement: new_stmt.
pub const STATEMENT: u16 = 1;

/// A match arm: new_match_arm.
pub const MATCH_ARM: u16 = 2;

/// The condition of an `if` or a `while`: new_condition.
pub const CONDITION: u16 = 3;

/// Those in which plain tokens are written and read.
pub const PLAIN: [u16; 2] = [NONE, CONDITION];
