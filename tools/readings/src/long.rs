//! The longest token lists: what our reader answers, how long it takes, and how much
//! stack it needs.

use crate::ours::Ours;
use model::codes::*;
use model::contexts::{CONDITION, NONE};
use model::forms::operator::ADD;
use model::sizes::{MOST_CELLS, MOST_TOKENS, NODE_CELLS};
use std::process::Command;
use std::time::Instant;

/// A list that repeats `open`, then has `middle`, then repeats `close`, as often as fits.
fn nest(open: &[u16], middle: &[u16], close: &[u16]) -> Vec<u16> {
    let times = (MOST_TOKENS - middle.len()) / (open.len() + close.len());
    let mut list = open.repeat(times);
    list.extend(middle);
    list.extend(close.repeat(times));
    list
}

/// The lists by name, each with the context in which it is read.
fn lists() -> Vec<(&'static str, u16, Vec<u16>)> {
    let in_none = of_names().into_iter().map(|(name, list)| (name, NONE, list));
    let conditions = [
        ("a condition of names", nest(&[NAME, ADD], &[NAME], &[])),
        ("a condition of structs in parentheses", {
            nest(&[OPEN, STRUCT, CLOSE, ADD], &[NAME], &[])
        }),
        ("a struct in parentheses, in a condition", nest(&[OPEN], &[STRUCT], &[CLOSE])),
        (
            "structs as arguments, in a condition",
            nest(&[NAME, OPEN, STRUCT, COMMA], &[STRUCT], &[CLOSE]),
        ),
        ("a struct at the end of a condition", nest(&[NAME, ADD], &[STRUCT], &[])),
    ];
    in_none.chain(conditions.map(|(name, list)| (name, CONDITION, list))).collect()
}

/// Those that are read in context 0.
fn of_names() -> Vec<(&'static str, Vec<u16>)> {
    vec![
        ("nested parentheses", nest(&[OPEN], &[NAME], &[CLOSE])),
        ("prefixes", nest(&[MINUS], &[NAME], &[])),
        ("a chain of sums", nest(&[NAME, ADD], &[NAME], &[])),
        ("a chain of assignments", nest(&[NAME, EQUALS], &[NAME], &[])),
        ("a chain of `?`", nest(&[], &[NAME], &[QUESTION])),
        ("a chain of casts", nest(&[], &[NAME], &[AS, NAME])),
        ("one call with many items", {
            let mut list = vec![NAME, OPEN];
            list.extend([NAME, COMMA].repeat(MOST_TOKENS / 2 - 3));
            list.extend([NAME, CLOSE]);
            list
        }),
        ("one call with many items and a comma", {
            let mut list = vec![NAME, OPEN];
            list.extend([NAME, COMMA].repeat(MOST_TOKENS / 2 - 2));
            list.push(CLOSE);
            list
        }),
        ("nested calls with commas", nest(&[NAME, OPEN], &[NAME], &[COMMA, CLOSE])),
        ("nested calls", nest(&[NAME, OPEN], &[NAME], &[CLOSE])),
        ("nested indexes", nest(&[NAME, OPEN_BRACKET], &[NAME], &[CLOSE_BRACKET])),
        ("nested method calls", nest(&[NAME, DOT, NAME, OPEN], &[NAME], &[CLOSE])),
        ("calls that end early", nest(&[NAME, OPEN], &[NAME], &[])),
        ("type prefixes", {
            let mut list = vec![NAME, AS];
            list.extend([STAR_CONST].repeat(MOST_TOKENS - 3));
            list.push(NAME);
            list
        }),
        ("nested type arguments with commas", {
            let mut list = nest(&[NAME, LESS], &[NAME], &[COMMA, GREATER]);
            list.splice(..4, [NAME, AS]);
            list.truncate(list.len() - 4);
            list
        }),
        ("nested type arguments", {
            let mut list = vec![NAME, AS];
            list.extend(nest(&[NAME, LESS], &[NAME], &[GREATER]));
            list.truncate(MOST_TOKENS);
            list
        }),
    ]
}

/// Asks our reader for one list; a process of its own, so that its stack is its own.
pub fn one(ours: &mut Ours, name: &str) -> Option<u64> {
    let (_, context, list) = lists().into_iter().find(|(known, ..)| *known == name)?;
    let list = tokens(&list);
    let start = Instant::now();
    let verdict = ours.read(context, &list, MOST_CELLS)?;
    let time = start.elapsed();
    let status = std::fs::read_to_string("/proc/self/status").ok()?;
    let stack = status.lines().find_map(|line| line.strip_prefix("VmStk:"))?.trim().to_string();
    let answer = match verdict {
        Ok(cells) => format!("ok {}", cells.len() / NODE_CELLS),
        Err(refusal) => format!("no {refusal}"),
    };
    println!(
        "{name}: {} tokens, {answer}, {} ns a token, stack {stack}",
        list.len(),
        time.as_nanos() as usize / list.len()
    );
    Some(0)
}

/// Asks for each of them in turn.
pub fn all() -> Option<u64> {
    let program = std::env::current_exe().ok()?;
    let mut failed = 0;
    for (name, ..) in lists() {
        let status = Command::new(&program).args(["long", "library", name]).status().ok()?;
        failed += u64::from(!status.success());
    }
    Some(failed)
}
