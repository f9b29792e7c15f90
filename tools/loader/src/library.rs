//! The library's side.

pub use tezhukor::boundary::columns::{from_columns, load_columns, to_columns};
pub use tezhukor::boundary::{compare, load};
