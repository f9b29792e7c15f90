//! Drafts: expressions in which `{+|-}` or `{+..%}` stands for an operator that is not chosen
//! yet.

use crate::answer::{words, Answer};
use crate::braced::Braced;
use crate::commands::expression;
use crate::edits::marks;
use crate::locate::pointed;
use crate::show::{coloured, is_coloured, parentheses};
use model::open::each_with_each;
use std::ops::Range;
use tezhukor::build::Op;
use tezhukor::forms::BINARY;
use tezhukor::sizes::{MOST_ENTRIES, NODE_CELLS};
use tezhukor::text::{Names, Pair, Symbols, Text};
use tezhukor::{Answer as Told, Ops, Refusal, Tree};

/// Pairs that depend are bold and cyan, or marked below without colour.
const DEPENDS: &str = "1;36";
const MARK: char = '?';

/// The expression with the pairs that always stand and, marked, those that depend, and for each
/// of these one choice with it and one without.
pub fn draft(context: u16, text: &str) -> Result<Answer, Answer> {
    let shown = Shown::read(context, text)?;
    Ok(Answer::done(shown.lines(is_coloured()).join("\n") + "\n"))
}

/// Braces in a text, and the operators that they hold.
#[derive(Clone, PartialEq, Eq, Debug)]
struct Braces {
    at: Range<usize>,
    ops: Ops,
}

/// A choice of operators, one for each of some braces.
type Choice = Vec<Op>;

/// A draft: one tree whatever is chosen, but for the operators.
struct Draft {
    /// With the first operator of each set.
    tree: Tree,
    /// The Binaries that are open, in the order of the text.
    open: Vec<(u16, Ops)>,
    /// What was read with some choices, of which there is one for each that can differ.
    read: Vec<(Choice, Tree)>,
}

impl Draft {
    fn read(
        context: u16,
        text: &str,
        braces: &[Braces],
        symbols: &mut Symbols,
    ) -> Result<Draft, Answer> {
        let sets: Vec<Vec<Op>> = braces.iter().map(|braces| kinds(&braces.ops)).collect();
        let mut read = |choice: &Choice| {
            expression(context, &with_operators(text, braces, choice), text, symbols)
        };
        let first: Choice = sets.iter().map(|set| set[0]).collect();
        let tree = read(&first)?;
        let is_open = |at: &usize| braces[*at].ops.iter().nth(1).is_some();
        let places: Vec<usize> = (0..braces.len()).filter(is_open).collect();
        if places.len() > MOST_ENTRIES {
            return Err(Answer::refused(words(Refusal::Entries, "")));
        }
        let unlike = |place: usize, choice: &Choice| {
            let (one, other) = (first[place].spelled(), choice[place].spelled());
            let message = format!(
                "what is read depends on the operator, `{one}` or `{other}`: parentheses must say \
                 which operands it has"
            );
            Answer::refused(pointed(text, braces[place].at.start, &message))
        };
        let mut open = Vec::new();
        for &place in &places {
            let mut choice = first.clone();
            // Another operator of the set, of whatever kind.
            choice[place] = braces[place].ops.iter().nth(1).unwrap_or(first[place]);
            let changed = changed(&tree, &read(&choice).map_err(|_| unlike(place, &choice))?);
            let number = changed.ok_or_else(|| unlike(place, &choice))?;
            if tree.node(number).is_none_or(|node| node.form != BINARY) {
                let message = "an operator that is left open must stand between two operands";
                return Err(Answer::refused(pointed(text, braces[place].at.start, message)));
            }
            open.push((number, braces[place].ops.clone()));
        }
        let mut all = Vec::new();
        for choice in each_with_each(sets) {
            let other = places.iter().find(|&&place| choice[place] != first[place]);
            let place = other.copied().unwrap_or(0);
            let tried = match other {
                None => tree.clone(),
                Some(_) => read(&choice).map_err(|_| unlike(place, &choice))?,
            };
            let chosen: Choice = places.iter().map(|&place| choice[place]).collect();
            let meant = open.iter().zip(&chosen).map(|((node, _), op)| (*node, *op));
            if tried.cells() != with_details(&tree, meant) {
                return Err(unlike(place, &choice));
            }
            all.push((chosen, tried));
        }
        Ok(Draft { tree, open, read: all })
    }
}

/// Of a set one operator of each kind that a tree's pairs and its reading tell apart, in order.
fn kinds(ops: &Ops) -> Vec<Op> {
    let mut kinds: Vec<Op> = Vec::new();
    for op in ops.iter() {
        let class = |op: &Op| model::open::class(op.number());
        if kinds.iter().all(|other| class(other) != class(&op)) {
            kinds.push(op);
        }
    }
    kinds
}

/// The only node that another tree has otherwise.
fn changed(tree: &Tree, other: &Tree) -> Option<u16> {
    let differs = |number: &u16| tree.node(*number) != other.node(*number);
    let mut nodes = (1..=tree.count().max(other.count())).filter(differs);
    nodes.next().filter(|_| nodes.next().is_none())
}

/// The cells of the tree with other operators at some nodes.
fn with_details(tree: &Tree, chosen: impl Iterator<Item = (u16, Op)>) -> Vec<u16> {
    let mut cells = tree.cells().to_vec();
    for (node, op) in chosen {
        cells[NODE_CELLS * (usize::from(node) - 1) + model::table::DETAIL] = op.number();
    }
    cells
}

/// The text with operators in place of braces; all else stands where it stood.
fn with_operators(text: &str, braces: &[Braces], choice: &Choice) -> String {
    let (mut chosen, mut done) = (String::new(), 0);
    for (Braces { at, .. }, op) in braces.iter().zip(choice) {
        chosen.push_str(&text[done..at.start]);
        chosen.push_str(&format!("{:width$}", op.spelled(), width = at.len()));
        done = at.end;
    }
    chosen + &text[done..]
}

/// The braces of a text that hold operators; those of a struct hold none.
fn braces(text: &str) -> Result<Vec<Braces>, Answer> {
    let (mut found, mut at) = (Vec::new(), 0);
    while let Some(open) = text[at..].find(['{', '"']).map(|length| at + length) {
        let inside = &text[open + 1..];
        if text[open..].starts_with('"') {
            at = open + 1 + string_length(inside);
            continue;
        }
        let is_operator = |c: char| "+-*/%&|^<>=!".contains(c);
        at = open + 1;
        if inside.trim_start().starts_with(is_operator) {
            let close = inside
                .find('}')
                .ok_or_else(|| Answer::refused(pointed(text, open, "this brace is not closed")))?;
            at = open + 1 + close + 1;
            let mut set = Set { text, at: open + 1, end: open + 1 + close };
            found.push(Braces { at: open..at, ops: set.ops()? });
        }
    }
    Ok(found)
}

/// How many bytes follow up to the end of a string literal, its quote included.
fn string_length(inside: &str) -> usize {
    let mut is_escaped = false;
    let is_end = |c: char| {
        let ends = c == '"' && !is_escaped;
        is_escaped = c == '\\' && !is_escaped;
        ends
    };
    inside.find(is_end).map_or(inside.len(), |length| length + 1)
}

/// What stands in braces: operators and ranges of them, with `|` between them.
struct Set<'a> {
    text: &'a str,
    at: usize,
    end: usize,
}

impl Set<'_> {
    fn ops(&mut self) -> Result<Ops, Answer> {
        let mut ops = Vec::new();
        loop {
            let (start, lowest) = (self.at, self.op()?);
            let highest = if self.takes("..") { self.op()? } else { lowest };
            if lowest > highest {
                let message = words(Refusal::OpenRange, "");
                return Err(Answer::refused(pointed(self.text, start, &message)));
            }
            ops.extend(Op::ALL.iter().filter(|op| (lowest..=highest).contains(op)));
            if self.rest().is_empty() {
                return Ok(ops.into_iter().collect());
            }
            if !self.takes("|") {
                return Err(self.refused("between operators stands `|`, or `..` for a range"));
            }
        }
    }

    /// What is left, from the next sign on.
    fn rest(&mut self) -> &str {
        let rest = &self.text[self.at..self.end];
        self.at += rest.len() - rest.trim_start().len();
        &self.text[self.at..self.end]
    }

    fn takes(&mut self, sign: &str) -> bool {
        let is_there = self.rest().starts_with(sign);
        self.at += if is_there { sign.len() } else { 0 };
        is_there
    }

    /// The longest operator that stands there.
    fn op(&mut self) -> Result<Op, Answer> {
        let rest = self.rest();
        let here = Op::ALL.iter().filter(|op| rest.starts_with(op.spelled()));
        let longest = here.max_by_key(|op| op.spelled().len()).copied();
        let op = longest.ok_or_else(|| {
            self.refused("an operator with two operands, other than `=`, must stand here")
        })?;
        self.at += op.spelled().len();
        Ok(op)
    }

    fn refused(&mut self, message: &str) -> Answer {
        self.rest();
        Answer::refused(pointed(self.text, self.at, message))
    }
}

/// A set as it is written in braces.
fn spelled(ops: &Ops) -> String {
    let range = |range: &std::ops::RangeInclusive<Op>| {
        let (lowest, highest) = (range.start(), range.end());
        match highest.number() - lowest.number() {
            0 => vec![lowest.spelled().to_string()],
            1 => [lowest, highest].map(|op| op.spelled().to_string()).to_vec(),
            _ => vec![format!("{}..{}", lowest.spelled(), highest.spelled())],
        }
    };
    let parts: Vec<String> = ops.ranges().iter().flat_map(range).collect();
    // Where `|` is an operator too, blanks part it from the others.
    let between = if parts.iter().any(|part| part.contains('|')) { " | " } else { "|" };
    format!("{{{}}}", parts.join(between))
}

/// A draft as it is shown.
pub struct Shown {
    draft: Draft,
    pub names: Names,
    /// With all pairs that stand or may stand.
    pub braced: Braced,
    /// The pairs that depend, by where they open.
    pub depends: Vec<Pair>,
}

impl Shown {
    pub fn read(context: u16, text: &str) -> Result<Shown, Answer> {
        let mut symbols = Symbols::default();
        let draft = Draft::read(context, text, &braces(text)?, &mut symbols)?;
        let told = draft.tree.with_open(&draft.open);
        let told = told.map_err(|refusal| Answer::refused(words(refusal, "")))?;
        let names = symbols.names()?;
        Ok(Shown::new(draft, &told, names))
    }

    fn new(draft: Draft, told: &[Told], names: Names) -> Shown {
        let mut rows = draft.tree.rows();
        for (row, told) in rows.iter_mut().zip(told) {
            row.pair = row.pair & !1 | u16::from(*told != Told::Never);
        }
        let text = Text::new(&draft.tree, &rows, &names);
        let is_told = |pair: &&Pair| told[usize::from(pair.node) - 1] == Told::Depends;
        let depends = text.pairs().iter().filter(is_told).copied().collect();
        let open = draft.open.iter().map(|(node, ops)| (*node, spelled(ops)));
        let braced = Braced::new(&draft.tree, text, open);
        Shown { draft, names, braced, depends }
    }

    /// The tree with the first operator of each set.
    pub fn tree(&self) -> &Tree {
        &self.draft.tree
    }

    fn lines(&self, colour: bool) -> Vec<String> {
        let text = self.braced.whole();
        let places: Vec<usize> =
            parentheses(&self.depends).into_iter().map(|at| self.braced.moved(at)).collect();
        let mut lines = match colour {
            true => vec![coloured(&text, places, DEPENDS)],
            false if places.is_empty() => vec![text],
            false => vec![text.clone(), marks(&text, &places, MARK)],
        };
        lines.extend(self.depends.iter().map(|pair| self.told(pair)));
        if self.depends.is_empty() {
            lines.push("no pair depends on what is chosen".to_string());
        }
        lines
    }

    /// A pair that depends, with a choice that gives it and one that does not.
    fn told(&self, pair: &Pair) -> String {
        let (node, own) = (pair.node, self.braced.of(pair.node));
        let [with, without] =
            [true, false].map(|stands| self.chosen(pair, stands).map_or(String::new(), |c| c.0));
        format!("depends: the pair round node {node}, `{own}`; with {with} it stands, with {without} not")
    }

    /// A choice with which a pair stands, or one with which it does not, in words, and the tree
    /// with it.
    pub fn chosen(&self, pair: &Pair, stands: bool) -> Option<(String, &Tree)> {
        let has_pair = |tree: &Tree| tree.rows()[usize::from(pair.node) - 1].has_outer_pair();
        let (choice, tree) = self.draft.read.iter().find(|(_, tree)| has_pair(tree) == stands)?;
        let ops: Vec<String> = choice.iter().map(|op| format!("`{}`", op.spelled())).collect();
        Some((ops.join(", "), tree))
    }
}

#[cfg(test)]
mod tests {
    use super::*;

    fn sets(text: &str) -> Vec<String> {
        let braces = braces(text).expect("sets");
        braces.iter().map(|braces| spelled(&braces.ops)).collect()
    }

    #[test]
    fn braces_hold_sets() {
        assert_eq!(sets("a {+|-} b { * .. % } c"), ["{+|-}", "{*..%}"]);
        assert_eq!(sets("a {<|-|+|<=} b"), ["{+|-|<|<=}"]);
        assert_eq!(sets("a {+|-|*|/|%} b"), ["{+..%}"]);
        assert_eq!(sets("a {| | || | |=} b"), ["{|| | | | |=}"]);
        assert_eq!(sets("a {+} b"), ["{+}"]);
        // A struct's braces, and what stands in a string.
        assert!(sets("S { .. } + S {} == \"{+|-} \\\" {+|-}\"").is_empty());
        for text in ["a {+", "a {+ -} b", "a {=} b", "a {+|} b", "a {-..+} b", "a {+..} b"] {
            assert!(braces(text).is_err(), "{text}");
        }
    }

    #[test]
    fn operators_keep_places() {
        let text = "a {+|-} b {<<=} c";
        let braces = braces(text).expect("sets");
        let chosen = with_operators(text, &braces, &vec![Op::Sub, Op::ShlAssign]);
        assert_eq!(chosen, "a -     b <<=   c");
    }
}
