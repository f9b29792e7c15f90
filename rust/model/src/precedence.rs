//! The precedences of prettyplease's precedence.rs.

/// Their names, by rank.
pub const NAMES: [&str; 16] = [
    "Jump",
    "Assign",
    "Range",
    "Or",
    "And",
    "Let",
    "Compare",
    "BitOr",
    "BitXor",
    "BitAnd",
    "Shift",
    "Sum",
    "Product",
    "Cast",
    "Prefix",
    "Unambiguous",
];

/// The last of them.
pub const UNAMBIGUOUS: u16 = NAMES.len() as u16 - 1;
