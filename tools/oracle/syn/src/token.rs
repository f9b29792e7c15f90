//! Tokens. One unit type stands for all of them; the three brackets have their
//! own types because a name in expr.rs or a delimiter asks for them.

/// Any token but a bracket.
#[derive(Copy, Clone, Default, Debug, PartialEq, Eq)]
pub struct Any;

#[derive(Copy, Clone, Default, Debug)]
pub struct Paren;

#[derive(Copy, Clone, Default, Debug)]
pub struct Bracket;

/// Braces. expr.rs writes an [`crate::ExprBlock`] out with all its fields, so
/// that type can have none of ours; the braces of its block hold the number.
#[derive(Copy, Clone, Default, Debug)]
pub struct Brace {
    /// The number of the tree's node, 0 where it has none.
    pub node: u16,
}

/// The type of a token.
#[macro_export]
macro_rules! Token {
    ($token:tt) => {
        $crate::token::Any
    };
}
