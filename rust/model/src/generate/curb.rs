//! Keeps the crate's work on a tree within bounds.
//!
//! scan_right goes over the right operand of a node, and a second time if the
//! first answer was Fail (for Ranges and Lets also Bailout) and the operand's
//! precedence is not above the node's. Each such node doubles the work for all
//! nodes above it on the same right spine. [`levels`] counts them, generously:
//! it looks at forms only, and where some context lets a scan fail, it fails.

use super::draft::{Draft, DraftNode, Label};
use crate::forms::*;

/// How many nodes of one right spine may double the work.
///
/// Measured with the release build: milliseconds for all answers about one tree
/// with so many doubling nodes. `cargo run --release --bin nests` measures anew.
///
/// | nest | 12 | 16 | 20 | 24 |
/// |---|---|---|---|---|
/// | `..` by its end, left of `=` | 0.5 | 7 | 110 | 2,000 |
/// | `..` by its end, below a Field | 0.3 | 5 | 80 | 900 |
/// | `+`, Group by turns, below a Field | 0.3 | 4 | 60 | 1,100 |
/// | `-`, Group, `+`, Group by turns, below a Field | 0.5 | 7 | 90 | 1,700 |
///
/// The same number is document 01's for nests in differential runs.
pub const LONGEST_NEST: u32 = 16;

/// The work of scanning a node, once for most precedences and once for those of
/// Range and Let, at which a closed form may fail.
#[derive(Copy, Clone, Default)]
struct Work {
    can_fail: [bool; 2],
    levels: [u32; 2],
}

impl Work {
    /// The same at every precedence.
    fn same(can_fail: bool, levels: u32) -> Self {
        Work { can_fail: [can_fail; 2], levels: [levels; 2] }
    }
}

/// The largest number of doubling nodes on a right spine.
pub fn levels(draft: &Draft) -> u32 {
    let mut works = vec![Work::default(); draft.nodes.len()];
    for at in (0..draft.nodes.len()).rev() {
        works[at] = work(draft, &works, at);
    }
    works.iter().map(|work| work.levels[1]).max().unwrap_or(0)
}

/// Closes nodes until no right spine has more than [`LONGEST_NEST`] doubling
/// ones: Paren takes the place of a form with one operand, Index of one with two.
pub fn curb(draft: &mut Draft) {
    let mut works = vec![Work::default(); draft.nodes.len()];
    for at in (0..draft.nodes.len()).rev() {
        works[at] = work(draft, &works, at);
        if works[at].levels[1] > LONGEST_NEST {
            close(&mut draft.nodes[at]);
            works[at] = work(draft, &works, at);
        }
    }
}

fn close(node: &mut DraftNode) {
    let form = match node.operands {
        [Some(_), Some(_)] => INDEX,
        _ => PAREN,
    };
    if node.operands[0].is_none() {
        node.operands.swap(0, 1);
    }
    node.label = Label::new(form, node.label.attributes, 0);
}

fn work(draft: &Draft, works: &[Work], at: usize) -> Work {
    let DraftNode { label, operands } = draft.nodes[at];
    let precedence = |operand| least_precedence(draft, operand);
    let bare = label.attributes == 0;
    match (label.form, operands) {
        (GROUP, [Some(operand), _]) => works[operand],
        (UNARY | REFERENCE | RAW_ADDR, [Some(operand), _]) => {
            let Work { can_fail, levels } = works[operand];
            let twice = can_fail.map(|fails| fails && precedence(operand) < 14);
            let levels = [0, 1].map(|at| levels[at] + u32::from(twice[at]));
            Work { can_fail, levels }
        }
        (ASSIGN, [_, Some(operand)]) if bare => {
            Work::same(works[operand].can_fail[0], works[operand].levels[0])
        }
        (BINARY, [_, Some(operand)]) if bare => {
            let own = level(label.detail);
            let can_fail = works[operand].can_fail[0];
            let twice = own != 1 && can_fail && precedence(operand) <= own;
            Work::same(can_fail, works[operand].levels[0] + u32::from(twice))
        }
        (RANGE, [_, Some(operand)]) if bare => {
            Work::same(true, works[operand].levels[1] + u32::from(precedence(operand) <= 2))
        }
        (RANGE, [_, None]) if bare => Work::same(true, 0),
        (LET, [Some(operand), _]) => {
            Work::same(false, works[operand].levels[1] + u32::from(precedence(operand) < 5))
        }
        (BREAK | RETURN | YIELD, [Some(operand), _]) => Work::same(false, works[operand].levels[0]),
        (BREAK | RETURN | YIELD, [None, _]) => Work::same(true, 0),
        (CLOSURE, _) => Work::same(false, 0),
        _ => Work { can_fail: [false, true], levels: [0; 2] },
    }
}

/// The least precedence that a node can have in some context.
fn least_precedence(draft: &Draft, mut at: usize) -> u16 {
    loop {
        let DraftNode { label, operands } = draft.nodes[at];
        return match label.form {
            GROUP => {
                at = operands[0].expect("a Group's content");
                continue;
            }
            CLOSURE | BREAK | RETURN | YIELD | CAST => 0,
            ASSIGN => 1,
            RANGE => 2,
            LET => 5,
            BINARY => level(label.detail),
            _ => 14,
        };
    }
}

/// The precedence of a Binary operator.
fn level(operator: u16) -> u16 {
    match operator {
        0 | 1 => 11,
        2..=4 => 12,
        5 => 4,
        6 => 3,
        7 => 8,
        8 => 9,
        9 => 7,
        10 | 11 => 10,
        12..=17 => 6,
        _ => 1,
    }
}
