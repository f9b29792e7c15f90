//! Stand-in for syn: the types that prettyplease's precedence.rs, classify.rs,
//! fixup.rs and expr.rs name, with the fields that they name. There is no
//! parser, no span and no text.
//!
//! One thing is added: every expression holds the number of the tree's node that
//! it was built from, which [`Expr::node`] gives. Insides that our trees don't
//! have carry number 0.

#[macro_use]
pub mod token;

mod expr;
pub mod punctuated;
mod ty;

pub use expr::*;
pub use ty::*;

/// Whether an attribute stands before its expression or inside it.
#[derive(Copy, Clone)]
pub enum AttrStyle {
    Outer,
    Inner(Token![!]),
}

/// An attribute, of which only the place is known.
#[derive(Copy, Clone)]
pub struct Attribute {
    pub style: AttrStyle,
}

/// A name, always the same one.
#[derive(Copy, Clone, Default)]
pub struct Ident;

impl std::fmt::Display for Ident {
    fn fmt(&self, formatter: &mut std::fmt::Formatter) -> std::fmt::Result {
        formatter.write_str("name")
    }
}

/// A lifetime, always the same one.
#[derive(Copy, Clone, Default)]
pub struct Lifetime;

/// `for<'a>` of a closure. Ours have none.
pub struct BoundLifetimes;

/// A pattern. Our trees have none, so one stands for all.
#[derive(Copy, Clone, Default)]
pub struct Pat;

/// The call of a macro, without its tokens.
pub struct Macro {
    pub delimiter: MacroDelimiter,
}

/// What stands round the tokens of a macro.
pub enum MacroDelimiter {
    Paren(token::Paren),
    Brace(token::Brace),
    Bracket(token::Bracket),
}
