//! rustc's own trees, as it prints them and as node tables: what `readings` and `corpus` ask
//! rustc.

pub mod ast;
pub mod printed;
