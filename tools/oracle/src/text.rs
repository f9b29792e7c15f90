//! Answers as text.

use crate::answers::{Answers, NodeAnswers};
use std::fmt::Write;

/// What document 01's program `parens` prints for an accepted tree file: `ok`
/// and the count, then for each expression its number and row.
pub fn rows(answers: &Answers) -> String {
    let mut text = format!("ok {}\n", answers.nodes.len());
    for (answers, node) in answers.nodes.iter().zip(1..) {
        if let NodeAnswers::Expression(expression) = answers {
            let [pair, precedence, previous, next, flags] = expression.row.cells();
            writeln!(text, "{node} {pair} {precedence} {previous} {next} {flags}")
                .expect("a string takes all");
        }
    }
    text
}

/// The answers that need no context: `ok` and the count, then a line a node.
///
/// - An expression: number, `e`, requires_semi_to_be_stmt,
///   requires_comma_to_be_match_arm, expr_leading_label, expr_trailing_brace
///   (each 0 or 1), and `Precedence::of` (0 to 15).
/// - A type: number, `t`, trailing_unparameterized_path, type_trailing_brace.
/// - A link: number, `l`.
pub fn answers(answers: &Answers) -> String {
    let mut text = format!("ok {}\n", answers.nodes.len());
    for (answers, node) in answers.nodes.iter().zip(1..) {
        match answers {
            NodeAnswers::Expression(expression) => writeln!(
                text,
                "{node} e {} {} {} {} {}",
                u8::from(expression.requires_semi_to_be_stmt),
                u8::from(expression.requires_comma_to_be_match_arm),
                u8::from(expression.expr_leading_label),
                u8::from(expression.expr_trailing_brace),
                expression.precedence_of,
            ),
            NodeAnswers::Type(ty) => writeln!(
                text,
                "{node} t {} {}",
                u8::from(ty.trailing_unparameterized_path),
                u8::from(ty.type_trailing_brace),
            ),
            NodeAnswers::Link => writeln!(text, "{node} l"),
        }
        .expect("a string takes all");
    }
    text
}
