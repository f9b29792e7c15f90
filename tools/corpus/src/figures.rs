//! What is counted.

use model::codes::SPELLED;
use model::forms::{self, BINARY};
use model::{table, NodeTable};
use std::collections::BTreeMap;

/// Defines the figures: name, and what it counts.
macro_rules! figures {
    ($($name:ident $words:literal,)*) => {
        /// Something that is counted.
        #[derive(Copy, Clone, PartialEq, Eq, Debug)]
        pub enum Figure {
            $(#[doc = $words] $name,)*
        }

        const FIGURES: &[(Figure, &str)] = &[$((Figure::$name, $words),)*];
    };
}

figures! {
    Files "files",
    Unparsed "files that rustc does not parse",
    Lines "lines",
    Trees "trees",
    None "of them in context 0",
    Statements "in context 1, statements",
    Arms "in context 2, match arms",
    Conditions "in context 3, conditions",
    TooLarge "left out, as they are too large or too deep",
    Expressions "expressions in the others",
    Plain "trees that are plain",
    PlainExpressions "expressions in plain trees",
    SourcePairs "pairs in the source",
    OurPairs "pairs of ours",
    Both "pairs of both",
    SourceAlone "pairs of the source alone",
    OursAlone "pairs of ours alone",
    InnerPairs "inner pairs of ours, behind attributes",
    BeforeElse "pairs that `let .. else` asks for beside the rows",
    Changed "trees that rustc reads again with our pairs",
    Otherwise "of them read otherwise",
    Patterns "expressions in patterns, which are left out",
    Macros "statements that are macros, which are left out",
    OtherArguments "generic arguments that are no types, which are left out",
}

/// The figures of a package, or of all.
#[derive(Clone, Default)]
pub struct Figures {
    counts: [u64; FIGURES.len()],
}

impl Figures {
    pub fn count(&mut self, figure: Figure, times: u64) {
        self.counts[figure as usize] += times;
    }

    pub fn of(&self, figure: Figure) -> u64 {
        self.counts[figure as usize]
    }

    pub fn add(&mut self, other: &Figures) {
        for (own, other) in self.counts.iter_mut().zip(&other.counts) {
            *own += other;
        }
    }

    /// A line with what a package has.
    pub fn print_line(&self, name: &str) {
        use Figure::*;
        let figures = [
            Files,
            Lines,
            Trees,
            Expressions,
            Plain,
            SourcePairs,
            OurPairs,
            SourceAlone,
            OursAlone,
        ];
        let numbers = figures.map(|figure| self.of(figure).to_string());
        println!("{name} | {}", numbers.join(" | "));
    }

    pub fn print(&self) {
        for &(figure, words) in FIGURES {
            println!("{words}: {}", self.of(figure));
        }
    }
}

/// Pairs that only one side has, by what they stand round and where.
#[derive(Default)]
pub struct Classes(BTreeMap<String, u64>);

impl Classes {
    pub fn count(&mut self, classes: Vec<String>) {
        for class in classes {
            *self.0.entry(class).or_default() += 1;
        }
    }

    /// The largest classes first.
    pub fn print(&self, name: &str) {
        println!("{name}:");
        let mut classes: Vec<_> = self.0.iter().collect();
        classes.sort_by_key(|(class, times)| (u64::MAX - **times, *class));
        for (class, times) in classes {
            println!("  {times} {class}");
        }
    }
}

/// What stands at a node, and below what.
pub fn class(tree: &NodeTable, node: u16) -> String {
    let owns = |owner: &u16| table::node(&tree.cells, *owner).operands.contains(&node);
    let named = |node: u16| {
        let node = table::node(&tree.cells, node);
        match node.form {
            BINARY => SPELLED[usize::from(node.detail)],
            form => forms::name(form).unwrap_or("?"),
        }
    };
    let below = match (1..node).find(owns) {
        None => format!("root in context {}", tree.context),
        Some(owner) => {
            let is_first = table::node(&tree.cells, owner).operands[0] == node;
            format!("{} of {}", if is_first { "first" } else { "second" }, named(owner))
        }
    };
    format!("{}, {below}", named(node))
}
