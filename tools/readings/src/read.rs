//! What rustc reads for texts in which names, literals and members are spelled by symbols.

use model::contexts::CONDITION;
use model::written::is_plain;
use readings::ast::{self, Named};
use readings::printed::{self, Value};

/// What rustc makes of a text: a tree, a tree that is not plain, or an error.
#[derive(Clone, PartialEq, Eq, Debug)]
pub enum Read {
    Tree(Vec<u16>),
    Other(String),
    Error,
}

/// The table of each `let`'s expression, or of each `if`'s condition, without parentheses.
pub fn all(text: &str, context: u16) -> Vec<Read> {
    let (crate_, mut found) = (printed::parsed(text), Vec::new());
    crate_.find(if context == CONDITION { "If" } else { "Local" }, &mut found);
    let read = |value: &&Value| {
        let holder = if context == CONDITION { value } else { value.field("kind") };
        table(&holder.inside[0], context).map_or_else(Read::Other, Read::Tree)
    };
    found.iter().map(read).collect()
}

/// The table of a plain tree, or what is not plain in it.
fn table(value: &Value, context: u16) -> Result<Vec<u16>, String> {
    let taken = ast::taken(value, &mut symbol)?;
    match taken.table(context) {
        Some(table) if is_plain(&table) && taken.other_arguments == 0 => Ok(table.cells),
        table => Err(format!("{table:?}")),
    }
}

/// The symbol of what is named: a path is one name, and a method has no generic arguments.
fn symbol(named: Named) -> Result<u16, String> {
    match named {
        Named::Path(value) => {
            let segment = only_segment(value)?;
            without_arguments(segment)
        }
        Named::Literal(value) => number(value.field("kind").inside[0].field("symbol").head),
        Named::Member(member) => number(member),
        Named::Method(segment) => without_arguments(segment),
        Named::Type(value) => number(only_segment(value)?.field("ident").head),
    }
}

fn only_segment<'a>(value: &'a Value<'a>) -> Result<&'a Value<'a>, String> {
    match &value.field("kind").inside[1].field("segments").inside[..] {
        [segment] => Ok(segment),
        _ => Err("a path of some segments".to_string()),
    }
}

fn without_arguments(segment: &Value) -> Result<u16, String> {
    match segment.field("args").head {
        "None" => number(segment.field("ident").head),
        _ => Err("generic arguments of an expression".to_string()),
    }
}

/// The symbol that a name, a literal or a member was spelled by, as `codes::text` does:
/// `x7#0`, `"7"` or `7#0`. `S` has none: it names a Struct whose braces were taken for a
/// block's.
fn number(spelled: &str) -> Result<u16, String> {
    let digits = spelled.trim_end_matches("#0").trim_matches('"').trim_start_matches('x');
    digits.parse().map_err(|_| format!("the name {spelled}"))
}
