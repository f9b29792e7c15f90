//! Stand-ins for the modules of prettyplease that expr.rs leans on. They lay
//! nothing out: what is printed goes to the recorder.

pub mod algorithm;
pub mod attr;
pub mod callee;
pub mod iter;
pub mod path;
pub mod stmt;

/// One step of indentation.
pub const INDENT: isize = 4;
