//! Symbols that have names.

use crate::forms::{has_symbol, FIELD, LIT};
use crate::sizes::NODE_CELLS;
use crate::table::{NodeTable, DETAIL, FORM, SYMBOL};

/// How many names there are, and how many numbers.
const EACH: u16 = 20_000;

/// Gives each node that may have a symbol one of a name, or of a number where it is a literal
/// or a numbered member.
pub fn with_names(table: &mut NodeTable) {
    for node in table.cells.chunks_mut(NODE_CELLS) {
        let (form, detail) = (node[FORM], node[DETAIL]);
        if has_symbol(form, detail) {
            let is_number = form == LIT || (form, detail) == (FIELD, 1);
            node[SYMBOL] = 1 + node[SYMBOL] % EACH + if is_number { EACH } else { 0 };
        }
    }
}

/// The name of each symbol from 1 on, a line each, as [`crate::codes::text`] spells them.
pub fn names() -> String {
    let line = |symbol| match symbol <= EACH {
        true => format!("x{symbol}\n"),
        false => format!("{symbol}\n"),
    };
    (1..=2 * EACH).map(line).collect()
}
