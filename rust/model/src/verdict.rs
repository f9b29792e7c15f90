//! What documents 01 and 02 say of reading a token list.

use crate::chart::Chart;
use crate::codes::{has_symbol, Token};
use crate::contexts;
use crate::forms;
use crate::sizes::{LAST_CODE, LAST_CONTEXT, MOST_CELLS, MOST_LEVELS, MOST_TOKENS};
use crate::sizes::{NODE_CELLS, TOKEN_CELLS};
use crate::table::{FIRST, FORM, SECOND};

/// The table of the reading, or the number of the refusal.
pub type Verdict = Result<Vec<u16>, u16>;

/// What is refused before a token is looked at, with so many cells lent for the table: 3, 13
/// and 12.
pub fn before_tokens(context: u16, lent: usize) -> Option<u16> {
    match context {
        _ if context > LAST_CONTEXT => Some(3),
        _ if !contexts::PLAIN.contains(&context) => Some(13),
        _ if lent < MOST_CELLS => Some(12),
        _ => None,
    }
}

/// Of a list that the chart holds, in a context in which lists are read. More than one
/// reading is no verdict.
pub fn verdict(chart: &Chart, context: u16) -> Result<Verdict, Vec<Vec<u16>>> {
    if chart.is_unread(context) {
        return Ok(Err(15));
    }
    let mut readings = chart.readings(context);
    if readings.len() > 1 {
        return Err(readings);
    }
    let reading = readings.pop().expect("a reading");
    Ok(within_bounds(reading))
}

/// A reading, or 16.
pub fn within_bounds(table: Vec<u16>) -> Verdict {
    if table.len() > MOST_CELLS || longest_path(&table) > MOST_LEVELS {
        Err(16)
    } else {
        Ok(table)
    }
}

/// Of any list in any context, with a table that is long enough; what 14 speaks of comes
/// before any reading.
pub fn of(chart: &mut Chart, context: u16, tokens: &[Token]) -> Result<Verdict, Vec<Vec<u16>>> {
    if let Some(refusal) = before_tokens(context, MOST_CELLS) {
        return Ok(Err(refusal));
    }
    if !is_list(tokens) {
        return Ok(Err(14));
    }
    chart.read(tokens);
    verdict(chart, context)
}

/// Of any cells, which are no token list if their number is odd.
pub fn of_cells(chart: &mut Chart, context: u16, cells: &[u16]) -> Result<Verdict, Vec<Vec<u16>>> {
    match cells.len() % TOKEN_CELLS {
        0 => of(chart, context, &Token::of_cells(cells)),
        _ => Ok(Err(before_tokens(context, MOST_CELLS).unwrap_or(14))),
    }
}

/// Whether 14 does not apply to tokens.
pub fn is_list(tokens: &[Token]) -> bool {
    tokens.len() <= MOST_TOKENS && tokens.iter().all(is_token)
}

/// Whether there is such a code, and it carries a symbol only if it may.
fn is_token(token: &Token) -> bool {
    token.code <= LAST_CODE && (token.symbol == 0 || has_symbol(token.code))
}

/// How many nodes the longest path of a table holds, links not counted. Owners
/// come before their operands.
pub fn longest_path(table: &[u16]) -> usize {
    let mut above = vec![0; table.len() / NODE_CELLS + 1];
    let mut longest = 0;
    for (node, number) in table.chunks(NODE_CELLS).zip(1..) {
        let path = above[number] + usize::from(node[FORM] != forms::LINK);
        longest = longest.max(path);
        above[usize::from(node[FIRST])] = path;
        above[usize::from(node[SECOND])] = path;
    }
    longest
}
