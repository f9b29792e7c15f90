//! Single changes to prettyplease's files, found by rules.
//!
//! A rule says what a piece of text becomes: an operator its neighbour, `true`
//! `false`, a precedence the next one, an alternative of a pattern nothing. The
//! changes of a file are numbered from 0 in the order of rules and places. The
//! build makes one of them (see build.rs); `mutants` makes one after the other.

use model::precedence::NAMES;
use std::path::{Path, PathBuf};

/// The files that are compiled, without their ending.
pub const FILES: [&str; 4] = ["precedence", "classify", "fixup", "expr"];

/// The folder of prettyplease's files, given the folder of this package.
pub fn source_folder(here: &str) -> PathBuf {
    match std::env::var_os("PRETTYPLEASE_SRC") {
        Some(folder) => folder.into(),
        None => Path::new(here).join("../../../shared/docs/src/src"),
    }
}

/// The text of one of prettyplease's files.
pub fn source(folder: &Path, file: &str) -> String {
    let path = folder.join(format!("{file}.rs.txt"));
    std::fs::read_to_string(&path).unwrap_or_else(|error| {
        panic!(
            "prettyplease's {file}.rs is not at {}: {error}. \
             Set PRETTYPLEASE_SRC to the folder that holds {file}.rs.txt.",
            path.display()
        )
    })
}

/// The number of a change, if a name FILE:N is about that file.
pub fn number(name: &str, file: &str) -> Option<usize> {
    let (named, number) = name.split_once(':').expect("a mutant's name is FILE:N");
    (named == file).then(|| number.parse().expect("a mutant's name is FILE:N"))
}

/// A change.
pub struct Mutant {
    /// The file and the number within it.
    pub name: String,
    /// The line, from 1 on.
    pub line: usize,
    start: usize,
    pub old: String,
    pub new: String,
}

impl Mutant {
    /// The changed text.
    pub fn apply(&self, text: &str) -> String {
        let end = self.start + self.old.len();
        assert!(text[self.start..end] == self.old, "another text than the one searched");
        format!("{}{}{}", &text[..self.start], self.new, &text[end..])
    }
}

/// All changes to a file.
pub fn mutants(file: &str, text: &str) -> Vec<Mutant> {
    let code = code(file, text);
    let mut changes: Vec<(usize, String, String)> = Vec::new();
    for (rule_file, old, new) in RULES {
        if rule_file.is_empty() || *rule_file == file {
            for start in places(&code, old) {
                changes.push((start, old.to_string(), new.to_string()));
            }
        }
    }
    for (at, precedence) in NAMES.iter().enumerate() {
        let next = NAMES[if at == 15 { 14 } else { at + 1 }];
        for start in places(&code, &format!("Precedence::{precedence}")) {
            let old = format!("Precedence::{precedence}");
            changes.push((start, old, format!("Precedence::{next}")));
        }
    }
    if file == "classify" {
        changes.extend(ended_walks(&code));
    }
    changes.extend(dropped_negations(&code));
    changes.extend(dropped_alternatives(&code));
    let mutant = |(number, (start, old, new)): (usize, (usize, String, String))| Mutant {
        name: format!("{file}:{number}"),
        line: text[..start].lines().count().max(1),
        start,
        old,
        new,
    };
    changes.into_iter().enumerate().map(mutant).collect()
}

/// What becomes what, and in which file; in all of them where none is named.
const RULES: &[(&str, &str, &str)] = &[
    ("", " < ", " <= "),
    ("", " <= ", " < "),
    ("", " > ", " >= "),
    ("", " >= ", " > "),
    ("", " == ", " != "),
    ("", " != ", " == "),
    ("", "&& ", "|| "),
    ("", "|| ", "&& "),
    ("", "true", "false"),
    ("", "false", "true"),
    ("", "Precedence::MIN", "Precedence::Assign"),
    ("", "Scan::Fail", "Scan::Bailout"),
    ("", "Scan::Bailout", "Scan::Consume"),
    ("", "Scan::Consume", "Scan::Fail"),
    ("", "is_none()", "is_some()"),
    ("", "is_some()", "is_none()"),
    ("", "attrs.is_empty()", "attrs.first().is_some()"),
    ("", "expr: None", "expr: Some(_)"),
    ("", "end: None", "start: None"),
    (
        "",
        "fixup.leftmost_subexpression_with_operator",
        "FixupContext::NONE.leftmost_subexpression_with_operator",
    ),
    (
        "",
        "fixup.leftmost_subexpression_with_dot",
        "FixupContext::NONE.leftmost_subexpression_with_dot",
    ),
    ("", "fixup.rightmost_subexpression_fixup", "FixupContext::NONE.rightmost_subexpression_fixup"),
    ("", "fixup.rightmost_subexpression", "FixupContext::NONE.rightmost_subexpression"),
    ("fixup", "0", "1"),
    ("fixup", "1", "0"),
    ("fixup", "2", "1"),
    ("fixup", "..self", "..FixupContext::NONE"),
    ("fixup", "self.precedence(expr)", "Precedence::of(expr)"),
    ("fixup", "self.stmt", "self.match_arm"),
    ("fixup", "self.match_arm", "self.stmt"),
    ("fixup", "self.condition", "self.rightmost_subexpression_in_condition"),
    ("fixup", "self.rightmost_subexpression_in_condition", "self.condition"),
    ("fixup", "self.leftmost_subexpression_in_stmt", "self.leftmost_subexpression_in_match_arm"),
    ("fixup", "self.leftmost_subexpression_in_match_arm", "self.leftmost_subexpression_in_stmt"),
    ("fixup", "self.leftmost_subexpression_in_optional_operand", "self.condition"),
    ("fixup", "self.next_operator_can_begin_expr", "self.next_operator_can_continue_expr"),
    ("fixup", "self.next_operator_can_continue_expr", "self.next_operator_can_begin_expr"),
    ("fixup", "self.next_operator_can_begin_generics", "self.next_operator_can_begin_expr"),
    ("fixup", "fixup.next_operator_can_begin_expr", "fixup.next_operator_can_continue_expr"),
    ("fixup", "self.previous_operator", "self.next_operator"),
    ("fixup", "self.next_operator", "self.previous_operator"),
    ("fixup", "fixup.previous_operator", "fixup.next_operator"),
    ("fixup", "fixup.next_operator", "fixup.previous_operator"),
    ("fixup", "requires_semi_to_be_stmt", "requires_comma_to_be_match_arm"),
    ("fixup", "requires_comma_to_be_match_arm", "requires_semi_to_be_stmt"),
    ("fixup", "&e.right", "&e.left"),
    ("fixup", "right_fixup,", "fixup,"),
    ("fixup", "right_fixup.", "fixup."),
    ("classify", "&e.left", "&e.right"),
    ("classify", "&e.right", "&e.left"),
    ("classify", "&e.start", "&e.end"),
    ("classify", "&e.end", "&e.start"),
    ("classify", ".last().unwrap()", ".first().unwrap()"),
    ("classify", ".into_iter().last()", ".into_iter().next()"),
    ("classify", "MacroDelimiter::Brace", "MacroDelimiter::Paren"),
    ("classify", "Delimiter::Brace", "Delimiter::Parenthesis"),
    ("precedence", "AttrStyle::Outer", "AttrStyle::Inner(_)"),
    ("precedence", "&e.expr", "e"),
    ("expr", "fixup = FixupContext::NONE", "let _ = &mut fixup"),
    ("expr", ", FixupContext::NONE", ", FixupContext::new_stmt()"),
    ("expr", ", fixup)", ", FixupContext::NONE)"),
    ("expr", "left_fixup)", "FixupContext::NONE)"),
    ("expr", "left_fixup,", "FixupContext::NONE,"),
    ("expr", "right_fixup)", "FixupContext::NONE)"),
    ("expr", "Member::Named", "Member::Unnamed"),
    ("expr", "|= fixup.parenthesize(expr)", "= fixup.parenthesize(expr)"),
    ("expr", "expr_leading_label", "expr_trailing_brace"),
];

/// The functions of expr.rs that hold grouping tests or hand contexts down.
const FUNCTIONS: &[&str] = &[
    "expr",
    "expr_beginning_of_line",
    "prefix_subexpr",
    "subexpr",
    "expr_assign",
    "prefix_subexpr_await",
    "expr_binary",
    "expr_break",
    "expr_call",
    "prefix_subexpr_call",
    "expr_cast",
    "expr_closure",
    "prefix_subexpr_field",
    "expr_group",
    "expr_index",
    "prefix_subexpr_index",
    "expr_let",
    "prefix_subexpr_method_call",
    "expr_paren",
    "expr_range",
    "expr_raw_addr",
    "expr_reference",
    "expr_return",
    "expr_try",
    "prefix_subexpr_try",
    "expr_unary",
    "expr_yield",
    "call_args",
];

/// Words of lines in these functions that are about layout, or about what our
/// trees don't have.
const LAYOUT: &[&str] = &[
    "beginning_of_line",
    "unindent_call_args",
    "wrap_in_brace",
    "okay_to_brace",
    "has_outer",
    "ExprMatch {",
    "is_blocklike",
    "trailing_comma",
    "is_short_ident",
    "inputs",
    "constness",
    "asyncness",
    "capture",
    "pat.is_",
    "mutability",
];

/// The text with spaces in place of all that is not changed: comments, uses,
/// attributes and, in expr.rs, what has no part in decisions.
fn code(file: &str, text: &str) -> String {
    let mut code = String::with_capacity(text.len());
    let mut in_use = false;
    let mut function = String::new();
    for line in text.split_inclusive('\n') {
        let trimmed = line.trim_start();
        in_use |= trimmed.starts_with("use ");
        if let Some((_, head)) = line.split_once("fn ") {
            function = head.chars().take_while(|&letter| is_word(letter)).collect();
        }
        let skipped = in_use
            || trimmed.starts_with('#')
            || file == "expr"
                && (!FUNCTIONS.contains(&function.as_str())
                    || LAYOUT.iter().any(|word| line.contains(word)));
        let kept = if skipped { 0 } else { line.find("//").unwrap_or(line.len()) };
        // The names of a pair that is taken apart.
        let names = line[..kept].find("let (").map_or(0..0, |start| {
            start..line[start..].find(')').map_or(kept, |length| start + length)
        });
        for (at, letter) in line.char_indices() {
            let hidden = at >= kept || names.contains(&at);
            code.push(if hidden && letter != '\n' { ' ' } else { letter });
        }
        in_use &= !line.contains(';');
    }
    assert!(code.len() == text.len(), "the text is plain ASCII");
    code
}

fn is_word(letter: char) -> bool {
    letter.is_ascii_alphanumeric() || letter == '_'
}

/// Where a text stands that is no part of longer words.
fn places(code: &str, old: &str) -> Vec<usize> {
    let (first, last) = (old.chars().next(), old.chars().next_back());
    let is_whole = |&start: &usize| {
        let before = code[..start].chars().next_back();
        let after = code[start + old.len()..].chars().next();
        let joins = |one: Option<char>, other: Option<char>| {
            one.is_some_and(is_word) && other.is_some_and(is_word)
        };
        !joins(before, first) && !joins(last, after)
    };
    code.match_indices(old).map(|(start, _)| start).filter(is_whole).collect()
}

/// A walk that goes on to another node ends with an answer instead.
fn ended_walks(code: &str) -> Vec<(usize, String, String)> {
    let mut changes = Vec::new();
    for step in ["expr = ", "ty = "] {
        for start in places(code, step) {
            let length = code[start..].find([',', ';', '\n']).unwrap_or(code.len() - start);
            let old = &code[start..start + length];
            changes.push((start, old.to_string(), "return false".to_string()));
            changes.push((start, old.to_string(), "return true".to_string()));
        }
    }
    changes
}

/// `!` before a name is left out.
fn dropped_negations(code: &str) -> Vec<(usize, String, String)> {
    let is_negation = |&start: &usize| {
        code[..start].ends_with([' ', '(']) && code[start + 1..].starts_with(is_word)
    };
    let starts = code.match_indices('!').map(|(start, _)| start).filter(is_negation);
    starts.map(|start| (start, "!".to_string(), String::new())).collect()
}

/// An alternative of a pattern is left out, where the arm says something else
/// than the arm for all others.
fn dropped_alternatives(code: &str) -> Vec<(usize, String, String)> {
    const ENUMS: [&str; 5] = ["Expr::", "Type::", "BinOp::", "Precedence::", "Scan::"];
    let mut changes = Vec::new();
    for (bar, _) in code.match_indices("| ") {
        let after = &code[bar + 2..];
        if code[..bar].ends_with('|') || !ENUMS.iter().any(|name| after.starts_with(name)) {
            continue;
        }
        let end = bar + 2 + pattern_length(after);
        if !says_something_else(code, bar) {
            continue;
        }
        changes.push((bar, code[bar..end].to_string(), String::new()));
        // The first alternative goes with the bar behind it.
        let start = pattern_start(code[..bar].trim_end());
        let is_first = !code[..start].trim_end().ends_with('|');
        if is_first && ENUMS.iter().any(|name| code[start..].starts_with(name)) {
            changes.push((start, code[start..bar + 2].to_string(), String::new()));
        }
    }
    changes
}

/// The length of a pattern: a path, and what stands in brackets behind it.
fn pattern_length(code: &str) -> usize {
    let path = code.find(|letter| !is_word(letter) && letter != ':').unwrap_or(code.len());
    let mut depth = 0;
    for (at, letter) in code[path..].char_indices() {
        match letter {
            '(' | '{' => depth += 1,
            ')' | '}' => {
                depth -= 1;
                if depth == 0 {
                    return path + at + 1;
                }
            }
            ' ' if at == 0 && code[path..].starts_with(" { ") => {}
            _ if depth == 0 => return path,
            _ => {}
        }
    }
    path
}

/// Where the pattern begins that a text ends in.
fn pattern_start(code: &str) -> usize {
    let mut depth = 0;
    let mut start = code.len();
    for (at, letter) in code.char_indices().rev() {
        match letter {
            ')' | '}' => depth += 1,
            '(' | '{' if depth > 0 => depth -= 1,
            _ if depth > 0 => {}
            ' ' if code[at + 1..].starts_with('{') => {}
            _ if is_word(letter) || letter == ':' => {}
            _ => return start,
        }
        start = at;
    }
    start
}

/// Whether the arm of an alternative has another body than the arm for all
/// others, which stands further down with the same indentation.
fn says_something_else(code: &str, alternative: usize) -> bool {
    let line = code[..alternative].rfind('\n').map_or(0, |end| end + 1);
    let indentation = code[line..].len() - code[line..].trim_start_matches(' ').len();
    let others = format!("\n{}_ => ", &code[line..line + indentation]);
    let first_line = |body: &str| body.lines().next().map(str::trim).map(str::to_string);
    let own = code[alternative..].split_once("=> ").and_then(|(_, body)| first_line(body));
    let other = code[alternative..].split_once(&others).and_then(|(_, body)| first_line(body));
    own != other
}
