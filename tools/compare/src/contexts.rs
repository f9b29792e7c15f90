//! The contexts that fixup.rs makes, from every context and every argument.

use model::forms::PATH;
use oracle::direct::{context_of_root, rightmost_context, Context, Subject};
use tezhukor::boundary::questions::{self, Maker};

/// A function that makes contexts: how many of them, and how many differ.
#[derive(Default)]
struct Count {
    made: u64,
    different: u64,
}

impl Count {
    fn add(&mut self, name: &str, from: Context, ours: Context, theirs: Context) {
        self.made += 1;
        if ours != theirs {
            self.different += 1;
            println!("{name}: {ours:?}, not {theirs:?}, from {from:?}");
        }
    }
}

/// All previous operators, next operators and flags.
fn every_context() -> impl Iterator<Item = Context> {
    (0..1 << 18).map(|number: u32| {
        [(number >> 14) as u16, (number >> 10 & 15) as u16, (number & 1023) as u16]
    })
}

/// Two booleans and a precedence.
fn every_argument() -> impl Iterator<Item = ([bool; 2], u16)> {
    (0..64).map(|number| ([number & 1 == 1, number & 2 == 2], number >> 2))
}

/// Compares all contexts, and says how many differ.
pub fn compare() -> u64 {
    const NAMES: [&str; 7] = [
        "FixupContext::NONE",
        "new_stmt",
        "new_match_arm",
        "new_condition",
        "leftmost_subexpression_with_operator",
        "leftmost_subexpression_with_dot",
        "rightmost_subexpression_fixup",
    ];
    let mut counts: [Count; 7] = Default::default();
    let mut add = |maker: Maker, from, ours, theirs| {
        let at = maker as usize;
        counts[at].add(NAMES[at], from, ours, theirs);
    };
    for maker in [Maker::None, Maker::NewStmt, Maker::NewMatchArm, Maker::NewCondition] {
        let ours = questions::context(maker, [0; 3], [false; 2], 0);
        add(maker, [0; 3], ours, context_of_root(maker as u16));
    }
    // The contexts do not depend on the operand; this one is scanned quickly.
    let operand = Subject::new(&[PATH, 0, 0, 0, 0, 0], 1, 1);
    for from in every_context() {
        let ours = questions::context(Maker::LeftmostWithDot, from, [false; 2], 0);
        add(Maker::LeftmostWithDot, from, ours, operand.leftmost_with_dot(from).1);
        for (booleans, precedence) in every_argument() {
            let [first, second] = booleans;
            let ours = questions::context(Maker::LeftmostWithOperator, from, booleans, precedence);
            let theirs = operand.leftmost_with_operator(from, first, second, precedence).1;
            add(Maker::LeftmostWithOperator, from, ours, theirs);
            let ours = questions::context(Maker::Rightmost, from, booleans, precedence);
            let theirs = rightmost_context(from, first, second, precedence);
            add(Maker::Rightmost, from, ours, theirs);
        }
    }
    let different = counts.iter().map(|count| count.different).sum();
    println!("contexts made from every context and argument: different {different}");
    for (name, count) in NAMES.iter().zip(&counts) {
        println!("  {name} {}", count.made);
    }
    different
}
