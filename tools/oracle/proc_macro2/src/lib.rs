//! Stand-in for proc-macro2: the names that prettyplease's classify.rs and
//! expr.rs use, and no more.
//!
//! A token stream is the source of a Verbatim form. Of its tokens only the kind
//! is held, which is all that classify.rs asks for.

use std::fmt;

/// What stands round a group of tokens.
#[derive(Copy, Clone, PartialEq, Eq, Debug)]
pub enum Delimiter {
    Parenthesis,
    Brace,
    Bracket,
    None,
}

/// A group of tokens, without what it holds.
#[derive(Clone, Debug)]
pub struct Group(pub Delimiter);

impl Group {
    pub fn delimiter(&self) -> Delimiter {
        self.0
    }
}

/// One token.
#[derive(Clone, Debug)]
pub enum TokenTree {
    Group(Group),
    Ident,
    Punct,
    Literal,
}

/// The tokens of a Verbatim form.
#[derive(Clone, Debug, Default)]
pub struct TokenStream {
    /// The number of the tree's node, 0 where it has none.
    pub node: u16,
    pub tokens: Vec<TokenTree>,
}

impl TokenStream {
    /// Always yes: expr.rs refuses to print a Verbatim expression that has
    /// tokens, and these tokens are never printed.
    pub fn is_empty(&self) -> bool {
        true
    }
}

impl IntoIterator for TokenStream {
    type Item = TokenTree;
    type IntoIter = std::vec::IntoIter<TokenTree>;

    fn into_iter(self) -> Self::IntoIter {
        self.tokens.into_iter()
    }
}

impl fmt::Display for TokenStream {
    fn fmt(&self, formatter: &mut fmt::Formatter) -> fmt::Result {
        write!(formatter, "{:?}", self.tokens)
    }
}
