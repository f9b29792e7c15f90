//! A tree as text, with braces for the operators that are not chosen yet.

use std::ops::Range;
use tezhukor::text::Text;
use tezhukor::Tree;

/// An operator that is not chosen yet: its Binary, where it stands in the text, and what stands
/// for it.
pub struct Operator {
    pub node: u16,
    pub at: Range<usize>,
    pub braces: String,
}

pub struct Braced {
    /// With an operator in place of each of the braces.
    pub text: Text,
    /// In the order of the text.
    pub operators: Vec<Operator>,
}

/// All operators are chosen.
impl From<Text> for Braced {
    fn from(text: Text) -> Braced {
        Braced { text, operators: Vec::new() }
    }
}

impl Braced {
    /// The text of a tree, with the braces of some Binaries.
    pub fn new(tree: &Tree, text: Text, open: impl IntoIterator<Item = (u16, String)>) -> Braced {
        let operator = |(number, braces): (u16, String)| {
            let node = tree.node(number).unwrap_or_default();
            let pair = text.pairs().iter().find(|pair| pair.node == node.first);
            let end = pair.map_or(text.span(node.first).end, |pair| pair.close + 1);
            // One blank stands on each side.
            let length = model::codes::SPELLED[usize::from(node.detail)].len();
            Operator { node: number, at: end + 1..end + 1 + length, braces }
        };
        let mut operators: Vec<Operator> = open.into_iter().map(operator).collect();
        operators.sort_by_key(|operator| operator.at.start);
        Braced { text, operators }
    }

    /// A part of the text.
    pub fn part(&self, part: Range<usize>) -> String {
        let (mut text, mut done) = (String::new(), part.start);
        for operator in self.operators.iter().filter(|o| part.contains(&o.at.start)) {
            text.push_str(&self.text.as_str()[done..operator.at.start]);
            text.push_str(&operator.braces);
            done = operator.at.end;
        }
        text + &self.text.as_str()[done..part.end]
    }

    pub fn whole(&self) -> String {
        self.part(0..self.text.as_str().len())
    }

    /// A node's own text.
    pub fn of(&self, number: u16) -> String {
        self.part(self.text.span(number))
    }

    /// Where a byte of the text stands once braces stand for operators.
    pub fn moved(&self, at: usize) -> usize {
        self.part(0..at).len()
    }

    /// What stands for the operator of a node, if it is not chosen yet.
    pub fn braces(&self, number: u16) -> Option<&str> {
        let operator = self.operators.iter().find(|operator| operator.node == number);
        operator.map(|operator| operator.braces.as_str())
    }
}
