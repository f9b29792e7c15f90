//! Precedences and nodes in words.

use model::precedence::NAMES;
use tezhukor::codes::SPELLED;
use tezhukor::{forms, Binding, Lean, Node};

/// A precedence by name and number.
pub fn precedence(rank: u16) -> String {
    let name = NAMES.get(usize::from(rank)).copied().unwrap_or("none");
    format!("{name} ({rank})")
}

/// A node's form, with its operator.
pub fn form(node: Node) -> String {
    let name = forms::name(node.form).unwrap_or("no form");
    match (node.form, SPELLED.get(usize::from(node.detail))) {
        (forms::BINARY, Some(operator)) => format!("{name} `{operator}`"),
        (forms::UNARY, _) => {
            format!("{name} `{}`", ["*", "!", "-"].get(usize::from(node.detail)).unwrap_or(&"?"))
        }
        _ => name.to_string(),
    }
}

/// Which way an operator leans, and so what becomes of an operand of its own level.
pub fn lean(operator: u16, binding: Binding) -> String {
    let spelled = match operator {
        Binding::RANGE => "..",
        _ => SPELLED.get(usize::from(operator)).copied().unwrap_or("?"),
    };
    let side = match binding.lean {
        Lean::Left => "left",
        Lean::Right => "right",
        Lean::Neither if operator == Binding::RANGE => {
            return "ranges lean to neither side".to_string();
        }
        Lean::Neither => {
            return "comparisons lean to neither side, so a comparison under a comparison always \
                    stands in parentheses"
                .to_string();
        }
    };
    format!("`{spelled}` leans {side}: of operators of its level the {side} one comes first")
}
