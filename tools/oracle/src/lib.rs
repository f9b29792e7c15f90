//! The differential oracle: prettyplease 0.3.0's own precedence.rs, classify.rs,
//! fixup.rs and expr.rs, compiled as they are over stand-in types, answer
//! questions about the trees of document 01.
//!
//! - [`answers`] gives all answers for an accepted node table: those of
//!   classify.rs and `Precedence::of` for each node, and the row of document 01
//!   for each expression, recorded while the crate's `Printer::expr` prints.
//! - [`direct`] asks single functions, the private ones of fixup.rs included.
//! - [`orders`] holds the rows of both callee orders against what is said of them.
//! - [`command`] ends a command that compares.
//!
//! `stand_in` and the path crates `syn` and `proc_macro2` stand in for what the
//! four files lean on; `build.rs` takes the files and puts five recording lines
//! into expr.rs, and our test of a callee beside the crate's two, which decide as
//! they are unless our order is asked for.

mod answers;
pub mod command;
pub mod digest;
pub mod direct;
pub mod orders;
mod recorder;
pub mod text;
pub mod tree;

mod stand_in;
pub(crate) use stand_in::{algorithm, attr, iter, path, stmt, INDENT};

// prettyplease's own files. Not all of their functions are asked.
#[allow(dead_code, clippy::all)]
mod classify;
#[allow(dead_code, clippy::all)]
mod expr;
#[allow(dead_code, clippy::all)]
mod fixup;
#[allow(dead_code, clippy::all)]
mod precedence;

#[cfg(feature = "kept_scans")]
pub use answers::rows_of;
pub use answers::{
    answers, answers_by, rows, Answers, BuiltTree, ExpressionAnswers, NodeAnswers, TypeAnswers,
};
pub use direct::{
    leftmost_precedence_of, parenthesize_of, precedence_of, rightmost_precedence_of, scan_left_of,
    scan_right_of,
};
#[cfg(feature = "kept_scans")]
pub use fixup::keeping;
pub use recorder::Row;
