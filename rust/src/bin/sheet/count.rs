//! How many pairs were added, and what is promised of their number.

use tezhukor::forms::PAREN;
use tezhukor::{contexts, Tree};

/// The pairs of a tree.
pub struct Count {
    outer: usize,
    /// Behind attributes; plain trees have none.
    inner: usize,
    promise: Promise,
}

/// What is promised of the number of outer pairs.
enum Promise {
    /// No way of putting pairs round the operands that reads back as the tree has fewer.
    Fewest,
    /// The number alone.
    InCondition,
    WithParens,
    NotPlain,
}

impl Count {
    pub fn of(tree: &Tree) -> Count {
        let rows = tree.rows();
        let has_parens = (1..=tree.count())
            .any(|number| tree.node(number).is_some_and(|node| node.form == PAREN));
        let (outer, promise) = match tree.written() {
            Ok(written) => match tree.context() {
                contexts::CONDITION => (written.pairs.into(), Promise::InCondition),
                _ if has_parens => (written.pairs.into(), Promise::WithParens),
                _ => (written.pairs.into(), Promise::Fewest),
            },
            Err(_) => (rows.iter().filter(|row| row.has_outer_pair()).count(), Promise::NotPlain),
        };
        let inner = rows.iter().filter(|row| row.has_inner_pair()).count();
        Count { outer, inner, promise }
    }

    pub fn words(&self) -> String {
        let pairs = |number: usize, what: &str| match number {
            1 => format!("1 {what}pair"),
            _ => format!("{number} {what}pairs"),
        };
        match self.inner {
            0 => pairs(self.outer, ""),
            inner => format!("{}, {}", pairs(self.outer, "outer "), pairs(inner, "inner ")),
        }
    }

    /// The number, and what is promised of it.
    pub fn promise(&self) -> String {
        if (self.outer, self.inner) == (0, 0) {
            return "no pair was added".to_string();
        }
        let promise = match self.promise {
            Promise::Fewest => "no fewer do",
            Promise::InCondition => "in a condition fewer may do: the count alone is promised",
            Promise::WithParens => {
                "beside the sheet's own parentheses, of which none is counted: the count alone is \
                 promised"
            }
            Promise::NotPlain => "the tree is not plain: nothing is promised of the count",
        };
        format!("{}; {promise}", self.words())
    }
}
