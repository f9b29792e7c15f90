//! Document 01 in Rust, as document 02's requests change it, stated without the library:
//! what tests and tools hold the library against, and what they make trees with.
//!
//! Nothing here links the library or asks it anything, and nothing here comes from
//! prettyplease's files.
//!
//! - [`sizes`], [`contexts`], [`forms`], [`codes`] and [`precedence`] are tables; the crate
//!   `tezhukor` takes them from here.
//! - [`table`] and [`accept`] are node tables, tree files and their refusals; [`columns`]
//!   are rearranged files.
//! - [`rules`], [`chart`] and [`verdict`] are the plain grammar: all readings of a
//!   token list, found by cutting it. [`written`] says what is written for a tree, and
//!   [`commas`] where commas stand that may follow a last item.
//! - [`callee`] says when a Call groups its callee, in the crate's order and in ours, and
//!   where the rows of the two differ.
//! - [`edit`] says what an edit of an open sheet gives, and [`open`] what is told of a tree
//!   with operators that are not chosen yet.
//! - [`generate`] makes accepted trees, [`recorded`] reads recorded answers, and
//!   [`lent`] makes buffers that show what was written to them.

pub mod accept;
pub mod callee;
pub mod chart;
pub mod codes;
pub mod columns;
pub mod commas;
pub mod contexts;
pub mod edit;
pub mod forms;
pub mod generate;
pub mod lent;
pub mod open;
pub mod precedence;
pub mod recorded;
pub mod rules;
pub mod sizes;
pub mod table;
pub mod verdict;
pub mod written;

pub use callee::CalleeOrder;
pub use table::NodeTable;
