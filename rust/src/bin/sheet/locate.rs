//! Where a text is wrong.

use tezhukor::codes::{tokens, AND_AND, COMMA, EQUALS, NAME, STRUCT};
use tezhukor::text::open::{Next, Open};
use tezhukor::{contexts, Binding, Lean, Refusal, Tree};

/// The token from which on there is no reading; behind the last one the text ends
/// too early.
pub struct Unread {
    pub token: usize,
    pub message: String,
}

/// Where a list without a reading goes wrong: at the first token such that no list
/// that begins like this one up to it has a reading.
pub fn unread(context: u16, codes: &[u16]) -> Unread {
    let lengths: Vec<usize> = (1..=codes.len()).collect();
    let token = lengths.partition_point(|&length| begins_a_reading(context, &codes[..length]));
    let message = match token == codes.len() {
        true => ends_early(codes),
        false if is_bare_struct(context, codes, token) => {
            "refused (15): in a condition a struct needs parentheses, since its brace would open \
             the block"
        }
        false if chains(context, codes, token) => {
            "refused (15): comparisons do not chain, so one of them needs parentheses"
        }
        false => "refused (15): nothing that begins like this is a plain expression, from here on",
    };
    Unread { token, message: message.to_string() }
}

/// Why a list has no reading, if there are words for it.
pub fn reason(context: u16, codes: &[u16]) -> Option<String> {
    let message = unread(context, codes).message;
    let reason = message.strip_prefix("refused (15): ").unwrap_or(&message);
    (!reason.starts_with("nothing that begins")).then(|| reason.to_string())
}

/// Whether some list that begins like this has a reading: what is open is closed,
/// perhaps behind one more name.
fn begins_a_reading(context: u16, codes: &[u16]) -> bool {
    let closing: Vec<u16> = Open::behind(codes).closing.into_iter().rev().collect();
    [&[][..], &[NAME]].iter().any(|name| {
        let list = [codes, name, &closing[..]].concat();
        Tree::read(context, &tokens(&list)) != Err(Refusal::NoReading)
    })
}

/// Whether the token is a comparison where an operator may stand that leans to a side: it
/// is another comparison that keeps it from there.
fn chains(context: u16, codes: &[u16], token: usize) -> bool {
    let is_comparison = |code| {
        code < EQUALS && Binding::of(code).is_some_and(|binding| binding.lean == Lean::Neither)
    };
    let with_and = [&codes[..token], &[AND_AND]].concat();
    is_comparison(codes[token]) && begins_a_reading(context, &with_and)
}

/// Whether the token is a struct that only the condition keeps from there.
fn is_bare_struct(context: u16, codes: &[u16], token: usize) -> bool {
    context == contexts::CONDITION
        && codes[token] == STRUCT
        && begins_a_reading(contexts::NONE, &codes[..=token])
}

fn ends_early(codes: &[u16]) -> &'static str {
    let open = Open::behind(codes);
    if open.in_type_arguments() {
        return "refused (15): the text ends within type arguments; `<` behind a type name \
                always opens them, so a cast before `<` needs parentheses";
    }
    match (open.closing.is_empty(), open.next) {
        // Behind the comma of a list another item may stand, and need not.
        (false, _) if codes.last() == Some(&COMMA) => {
            "refused (15): the text ends before a bracket is closed"
        }
        (_, Next::Operand) => "refused (15): the text ends where an operand must stand",
        (_, Next::Type) => "refused (15): the text ends where a type must stand",
        (_, Next::Member) => "refused (15): the text ends where a member must stand",
        (false, _) => "refused (15): the text ends before a bracket is closed",
        (true, _) => "refused (15): the text has no reading",
    }
}

/// A message, the line of a place in the text, and a mark below it.
pub fn pointed(text: &str, at: usize, message: &str) -> String {
    let before = text.get(..at).unwrap_or(text);
    let start = before.rfind('\n').map_or(0, |newline| newline + 1);
    let line = text[start..].lines().next().unwrap_or("");
    let number = before.matches('\n').count() + 1;
    let column = before[start..].chars().count() + 1;
    let blank: String =
        before[start..].chars().map(|c| if c == '\t' { '\t' } else { ' ' }).collect();
    let shown: String =
        line.chars().map(|c| if c.is_control() && c != '\t' { '?' } else { c }).collect();
    format!("{message} (line {number}, column {column})\n  {shown}\n  {blank}^")
}
