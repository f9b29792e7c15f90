//! What the pairs of a plain tree prevent, in words.

use crate::locate;
use std::collections::HashMap;
use tezhukor::forms::CAST;
use tezhukor::text::{Names, Text};
use tezhukor::{Prevented, Reading, Tree};

/// A line for each node that has a pair; none where the tree is not plain.
pub struct Prevents(HashMap<u16, String>);

impl Prevents {
    pub fn new(tree: &Tree, names: &Names) -> Prevents {
        let text = Text::new(tree, &tree.rows(), names);
        let all = tree.prevented(names).unwrap_or_default();
        let line = |prevented: Prevented| {
            let own = text.of(prevented.node);
            let is_cast = tree.node(prevented.node).is_some_and(|node| node.form == CAST);
            let reads = reads(tree.context(), &prevented, own, is_cast);
            let line = format!("({own}): without it: {}, {reads}", prevented.text);
            (prevented.node, line)
        };
        Prevents(all.into_iter().map(line).collect())
    }

    /// What a node's pair prevents, and behind it who asks for the pair.
    pub fn before(&self, asks: String, node: u16) -> String {
        match self.0.get(&node) {
            Some(prevents) => format!("{prevents}\n  {asks}"),
            None => asks,
        }
    }
}

/// How the tokens without the pair round a text read.
fn reads(context: u16, prevented: &Prevented, own: &str, is_cast: bool) -> String {
    match &prevented.reading {
        Reading::None => {
            let codes: Vec<u16> = prevented.tokens.iter().map(|token| token.code).collect();
            let is_before_less = prevented.text.contains(&format!("{own} <"));
            match locate::reason(context, &codes) {
                Some(reason) => format!("which has no reading: {reason}"),
                None if is_cast && is_before_less => {
                    "which has no reading: behind a type name `<` opens type arguments, and `<<` \
                     is no operator"
                        .to_string()
                }
                None => "which has no reading".to_string(),
            }
        }
        Reading::TooLarge => "which is more than a tree may be".to_string(),
        // A named field that is called, alone, leaves no group behind.
        Reading::Other { grouped: 0, .. } => {
            let method = own.rsplit('.').next().unwrap_or(own);
            format!("which calls the method `{method}`")
        }
        Reading::Other { text, .. } => format!("which reads {text}"),
    }
}
