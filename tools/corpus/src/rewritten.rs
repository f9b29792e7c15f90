//! A file with our pairs in place of its own, and what rustc reads there.

use crate::places::Found;
use crate::spans::Source;
use readings::ast::{in_parens, is_expression};
use readings::printed::{self, Value};
use std::ops::Range;
use tezhukor::boundary::questions::{self, Place, Question};
use tezhukor::Tree;

/// The pairs of a tree: what each node's row says, and whether it ends in a brace.
pub struct Pairs {
    pub by_node: Vec<u16>,
    pub ends_in_brace: bool,
}

impl Pairs {
    /// Those that are decided for a tree.
    pub fn new(tree: &Tree) -> Pairs {
        let place = Place { table: tree.cells(), count: tree.count(), node: 1 };
        Pairs {
            by_node: tree.rows().iter().map(|row| row.pair).collect(),
            ends_in_brace: questions::answer(Question::TrailingBrace, place) == 1,
        }
    }
}

/// A place where the two sides differ: the node, and where it stands.
pub struct Apart {
    pub node: usize,
    pub bytes: Range<usize>,
}

/// The pairs of a tree in the source and by our rows.
#[derive(Default)]
pub struct Compared {
    /// Where both have one.
    pub both: u64,
    /// Those of the source that we have not, one round another included.
    pub source_alone: Vec<Apart>,
    /// Ours that the source has not.
    pub ours_alone: Vec<Apart>,
    /// Inner pairs, behind attributes.
    pub inner: u64,
    /// Whether a `let` with an `else` asks for a pair that no row has.
    pub before_else: bool,
    changes: Vec<(usize, Change)>,
}

#[derive(Copy, Clone, PartialEq, Eq, PartialOrd, Ord)]
enum Change {
    Close,
    Open,
    /// A parenthesis that becomes a blank.
    Blank,
}

impl Compared {
    /// A tree's own pairs and those that are decided for it.
    pub fn new(source: &Source, found: &Found, pairs: &Pairs) -> Compared {
        let (taken, mut compared) = (&found.taken, Compared::default());
        let mut own: Vec<Vec<Range<usize>>> = vec![Vec::new(); taken.values.len()];
        for &(paren, node) in &taken.parens {
            own[node - 1].push(source.span(paren));
        }
        for (at, &pair) in pairs.by_node.iter().enumerate() {
            let brace = at == 0 && found.is_before_else && pairs.ends_in_brace;
            compared.before_else |= brace && pair == 0;
            let has_pair = pair & 1 == 1 || brace;
            // Of some pairs one round another the first is the innermost.
            let kept = usize::from(has_pair && !own[at].is_empty());
            compared.both += u64::from(kept == 1 && !brace);
            for bytes in own[at].drain(kept..) {
                compared.changes.push((bytes.start, Change::Blank));
                compared.changes.push((bytes.end - 1, Change::Blank));
                compared.source_alone.push(Apart { node: at + 1, bytes });
            }
            if has_pair && kept == 0 {
                let bytes = with_attributes(source, taken.values[at]);
                compared.change(bytes.clone());
                if !brace {
                    compared.ours_alone.push(Apart { node: at + 1, bytes });
                }
            }
            if pair & 2 == 2 {
                compared.inner += 1;
                compared.change(source.span(taken.values[at]));
            }
        }
        compared
    }

    /// Puts a pair round some bytes.
    fn change(&mut self, bytes: Range<usize>) {
        self.changes.push((bytes.start, Change::Open));
        self.changes.push((bytes.end, Change::Close));
    }

    /// Whether our pairs are not just those of the source.
    pub fn is_changed(&self) -> bool {
        !self.changes.is_empty()
    }
}

/// The bytes of an expression, its outer attributes included.
fn with_attributes(source: &Source, value: &Value) -> Range<usize> {
    let attributes = value.field("attrs").inside.iter().map(|attribute| source.span(attribute));
    let own = source.span(value);
    attributes.fold(own.clone(), |bytes, attribute| {
        let is_outer = attribute.end <= own.start;
        if is_outer {
            attribute.start.min(bytes.start)..bytes.end
        } else {
            bytes
        }
    })
}

/// The text with the changes of some trees.
pub fn rewritten(source: &Source, trees: &[&Compared]) -> String {
    let mut changes: Vec<_> = trees.iter().flat_map(|tree| tree.changes.iter().copied()).collect();
    changes.sort_unstable();
    let (mut text, mut at) = (String::new(), 0);
    for (place, change) in changes {
        text.push_str(&source.text[at..place]);
        at = place;
        match change {
            Change::Open => text.push('('),
            Change::Close => text.push(')'),
            Change::Blank => {
                assert!(source.text[at..].starts_with(['(', ')']), "a parenthesis");
                text.push(' ');
                at += 1;
            }
        }
    }
    text + &source.text[at..]
}

/// What rustc says of some trees rewritten: nothing where all is read as before.
pub fn judged(
    source: &Source,
    edition: &str,
    before: &Value,
    trees: &[&Compared],
) -> Option<String> {
    match printed::of_source(&rewritten(source, trees), edition) {
        Err(error) => Some(error.lines().next().unwrap_or("an error").to_string()),
        Ok(after) if is_same(before, &printed::parsed(&after)) => None,
        Ok(_) => Some("another tree".to_string()),
    }
}

/// The trees, by their places among some, that rustc reads otherwise when they are rewritten
/// alone, found by halving, with what it says.
pub fn otherwise(
    source: &Source,
    edition: &str,
    before: &Value,
    trees: &[(usize, &Compared)],
) -> Vec<(usize, String)> {
    let all: Vec<&Compared> = trees.iter().map(|tree| tree.1).collect();
    match (judged(source, edition, before, &all), trees) {
        (None, _) => Vec::new(),
        (Some(said), [(at, _)]) => vec![(*at, said)],
        (Some(_), _) => {
            let halves = trees.split_at(trees.len() / 2);
            let mut found = otherwise(source, edition, before, halves.0);
            found.extend(otherwise(source, edition, before, halves.1));
            found
        }
    }
}

/// Whether two values are the same but for places in the text and parentheses without
/// attributes.
fn is_same<'a>(one: &'a Value<'a>, other: &'a Value<'a>) -> bool {
    if one.field != other.field {
        return false;
    }
    let [one, other] = [one, other].map(without_parens);
    let is_place = |value: &&Value| value.head.ends_with("(#0)");
    let [insides, others] =
        [one, other].map(|value| value.inside.iter().filter(|inner| !is_place(inner)));
    one.head == other.head
        && insides.clone().count() == others.clone().count()
        && insides.zip(others).all(|(one, other)| is_same(one, other))
}

fn without_parens<'a>(mut value: &'a Value<'a>) -> &'a Value<'a> {
    while let Some(inner) = Some(value).filter(|value| is_expression(value)).and_then(in_parens) {
        value = inner;
    }
    value
}
