//! Every expression of a file at its place, which gives its context.

use crate::spans::Source;
use model::contexts::{CONDITION, MATCH_ARM, NONE, STATEMENT};
use model::NodeTable;
use readings::ast::{self, is_expression, Named, Taken};
use readings::printed::Value;
use std::collections::HashSet;

/// What stands for a symbol.
#[derive(Clone, PartialEq, Eq, Debug)]
pub struct Name {
    pub text: String,
    pub is_number: bool,
}

/// A tree where it stands.
pub struct Found<'a> {
    pub taken: Taken<'a>,
    pub context: u16,
    /// Whether it is what a `let` with an `else` is set to.
    pub is_before_else: bool,
    /// What symbol n stands for, at n - 1.
    pub names: Vec<Name>,
}

impl Found<'_> {
    /// Its node table, if its nodes can be counted.
    pub fn table(&self) -> Option<NodeTable> {
        self.taken.table(self.context)
    }
}

/// What is in a file.
#[derive(Default)]
pub struct Places<'a> {
    pub trees: Vec<Found<'a>>,
    /// Expressions that patterns hold, which are no operands of anything.
    pub in_patterns: u64,
    /// Statements that are macros.
    pub macros: u64,
    /// What is part of a tree already.
    parts: HashSet<*const Value<'a>>,
}

/// Where an expression stands that is no operand.
#[derive(Copy, Clone, PartialEq, Eq)]
enum Place {
    In(u16),
    BeforeElse,
    /// A branch behind `else`, or the block of a `const`: part of the form before it.
    Part,
}

/// All trees of what rustc printed for a source text.
pub fn places<'a>(source: &Source, printed: &'a Value<'a>) -> Places<'a> {
    let mut places = Places::default();
    places.walk(source, printed, Place::In(NONE));
    places
}

impl<'a> Places<'a> {
    fn walk(&mut self, source: &Source, value: &'a Value<'a>, place: Place) {
        if value.head == "Pat" {
            let mut found = Vec::new();
            value.find("Expr", &mut found);
            self.in_patterns += found.len() as u64;
            return;
        }
        self.macros += u64::from(value.head == "MacCallStmt");
        if is_expression(value)
            && place != Place::Part
            && !self.parts.contains(&std::ptr::from_ref(value))
        {
            self.take(source, value, place);
        }
        let is_shorthand = value.get("is_shorthand").is_some_and(|field| field.head == "true");
        for (at, inner) in value.inside.iter().enumerate() {
            let is_skipped = inner.field == "attrs" || is_shorthand && inner.field == "expr";
            if !is_skipped {
                self.walk(source, inner, place_of(value, at, place));
            }
        }
    }

    fn take(&mut self, source: &Source, value: &'a Value<'a>, place: Place) {
        let mut names = Vec::new();
        let mut symbol = |named: Named| Ok(number(&mut names, name(source, named)));
        let taken = ast::taken(value, &mut symbol).expect("each name has a symbol");
        let parts = taken.values.iter().chain(taken.parens.iter().map(|(paren, _)| paren));
        self.parts.extend(parts.map(|&part| std::ptr::from_ref(part)));
        let (context, is_before_else) = match place {
            Place::In(context) => (context, false),
            Place::BeforeElse | Place::Part => (NONE, place == Place::BeforeElse),
        };
        self.trees.push(Found { taken, context, is_before_else, names });
    }
}

/// The place of what is inside a value.
fn place_of(value: &Value, at: usize, own: Place) -> Place {
    let is_kind = value.field == "kind";
    match (value.head, value.inside[at].field) {
        ("Some" | "AnonConst", _) => own,
        ("Semi" | "Expr", _) if is_kind => Place::In(STATEMENT),
        ("Arm", "body") => Place::In(MATCH_ARM),
        ("If" | "While" | "Match", _) if is_kind && at == 0 => Place::In(CONDITION),
        ("ForLoop", "iter") => Place::In(CONDITION),
        ("If", _) if is_kind && at == 2 => Place::Part,
        ("ConstBlock", _) if is_kind => Place::Part,
        ("InitElse", _) if at == 0 => Place::BeforeElse,
        _ => Place::In(NONE),
    }
}

/// The number of a name among others, from 1 on; a new one is put behind them.
fn number(names: &mut Vec<Name>, name: Name) -> u16 {
    let at = names.iter().position(|other| *other == name).unwrap_or_else(|| {
        names.push(name);
        names.len() - 1
    });
    // A tree with more names than that is too large for a table.
    u16::try_from(at + 1).unwrap_or(0)
}

/// What a name is in the source, on one line.
fn name(source: &Source, named: Named) -> Name {
    let text = match named {
        Named::Path(value) | Named::Literal(value) => source.of(value).to_string(),
        Named::Member(member) => member.to_string(),
        Named::Method(segment) => {
            let name = segment.field("ident").head.trim_end_matches("#0");
            match generics(segment) {
                Some(generics) => format!("{name}::{}", source.of(generics)),
                None => name.to_string(),
            }
        }
        Named::Type(value) => {
            let mut whole = source.span(value);
            let segments = &value.field("kind").inside[1].field("segments").inside;
            if let Some(generics) = segments.last().and_then(generics) {
                whole.end = source.span(generics).start;
            }
            source.text[whole].trim_end().trim_end_matches("::").to_string()
        }
    };
    let is_number = match named {
        Named::Literal(_) => true,
        Named::Member(member) => member.starts_with(|c: char| c.is_ascii_digit()),
        _ => false,
    };
    let is_string = text.starts_with(['"', '\'']);
    let text = if is_string { text } else { text.split_whitespace().collect::<Vec<_>>().join(" ") };
    Name { text, is_number }
}

/// The generic arguments of a segment.
fn generics<'a>(segment: &'a Value<'a>) -> Option<&'a Value<'a>> {
    segment.field("args").some().and_then(|arguments| arguments.inside.first())
}
