//! Where a printed Rust expression needs parentheses.
//!
//! `offset - (station - start)` without its pair compiles, and means another curve.
//! A generator [builds](build) a tree by functions, and gets back which operands need a pair:
//!
//! ```
//! use tezhukor::build::{binary, path, Context, Op};
//! use tezhukor::text::Symbols;
//! # fn main() -> Result<(), Box<dyn std::error::Error>> {
//!
//! // Names are numbers in a tree: offset gets symbol 1, station 2, start 3.
//! let mut symbols = Symbols::default();
//! let [offset, station, start] = ["offset", "station", "start"].map(|name| symbols.symbol(name));
//! let distance = binary(Op::Sub, path(station), path(start));
//! let tree = binary(Op::Sub, path(offset), distance).tree(Context::None)?;
//! assert_eq!(tree.to_rust(&symbols.names()?)?, "offset - (station - start)");
//! # Ok(())
//! # }
//! ```
//!
//! Trees are kept and handed over as *tree files*, in which nodes have numbers:
//!
//! ```
//! // offset - (station - start): Binary Sub over a Path and another Binary Sub.
//! let name = [26, 0, 0, 0, 0, 0];
//! let outer = [5, 0, 1, 2, 3, 0];
//! let inner = [5, 0, 1, 4, 5, 0];
//! let file = [&[0, 5][..], &outer, &name, &inner, &name, &name].concat();
//! let rows = tezhukor::rows(&file)?;
//! let pairs: Vec<bool> = rows.iter().map(|row| row.has_outer_pair()).collect();
//! assert_eq!(pairs, [false, false, true, false, false]);
//! # Ok::<(), tezhukor::Refusal>(())
//! ```
//!
//! A *plain* tree (names, literals, structs, operators, casts, calls, fields, indexes, `?`
//! and await) can be written as tokens, and tokens read back as a tree:
//!
//! ```
//! use tezhukor::codes::{self, CLOSE, MINUS, NAME, OPEN};
//! use tezhukor::{contexts, Token};
//!
//! // offset is symbol 1, station 2, start 3.
//! let name = |symbol| Token::new(NAME, symbol);
//! let [minus, open, close] = [MINUS, OPEN, CLOSE].map(Token::from);
//! let tokens = [name(1), minus, open, name(2), minus, name(3), close];
//! let file = tezhukor::tree_file(contexts::NONE, &tokens)?;
//! assert_eq!(tezhukor::tokens(&file)?, tokens);
//!
//! // Without the pair it is another tree.
//! let other = [name(1), minus, name(2), minus, name(3)];
//! assert_ne!(tezhukor::tree_file(contexts::NONE, &other)?, file);
//! # Ok::<(), tezhukor::Refusal>(())
//! ```
//!
//! So can one that stands in a condition, where a struct outside every parenthesis, bracket
//! and argument list has no reading: its brace would open the block.
//!
//! ```
//! use tezhukor::codes::{CLOSE, NAME, OPEN, STRUCT};
//! use tezhukor::forms::operator::EQ;
//! use tezhukor::{contexts, Refusal, Token};
//!
//! // reading == (Limit { .. })
//! let [equal, open, limit, close] = [EQ, OPEN, STRUCT, CLOSE].map(Token::from);
//! let reading = Token::new(NAME, 1);
//! let tokens = [reading, equal, open, limit, close];
//! let file = tezhukor::tree_file(contexts::CONDITION, &tokens)?;
//! assert_eq!(tezhukor::tokens(&file)?, tokens);
//! let bare = [reading, equal, limit];
//! assert_eq!(tezhukor::tree_file(contexts::CONDITION, &bare), Err(Refusal::NoReading));
//! // Elsewhere the pair is needless.
//! let file = tezhukor::tree_file(contexts::NONE, &tokens)?;
//! assert_eq!(tezhukor::tokens(&file)?, bare);
//! # Ok::<(), tezhukor::Refusal>(())
//! ```
//!
//! It is proved, for every accepted plain tree in context 0 or 3, that its tokens have
//! exactly one reading, the tree without its own parentheses, and that no pair that
//! was added can be left out. In context 0, of a tree without parentheses of its own, no way
//! of putting pairs round its operands that reads back as it has fewer; [`Tree::written`]
//! says how many there are. `docs/TRUST.md` says what a reader must believe; this crate,
//! which calls the proved library, is on that list.
//!
//! What is wrong with a file is told by number and in a sentence:
//!
//! ```
//! let refusal = tezhukor::rows(&[4, 1, 26, 0, 0, 0, 0, 0]).unwrap_err();
//! assert_eq!(refusal, tezhukor::Refusal::Context);
//! assert_eq!(refusal.number(), 3);
//! assert_eq!(refusal.to_string(), "The context is above 3.");
//! ```
//!
//! A node has six numbers, the last of them a symbol that Path, Lit, Field, MethodCall and
//! path types may have. Files of five numbers a node, as older versions had them, are no
//! longer read: they meet the refusal that their numbers give, 5 where the header is in
//! order. A token is a code and a symbol, which a name, a literal and a numbered member may
//! have: that of the node that it was written for, and of the node that is read from it. What
//! a symbol stands for is the caller's affair; the command `sheet` keeps a line for each.
//!
//! A tree that is edited is held open with its rows, as an [`OpenSheet`]: what stands at a
//! node is replaced by another tree, and all rows are those of the result. A [`Preview`] says
//! beforehand which pairs come and go, by their places in the [`text`]. A sheet holds its
//! [`CalleeOrder`]: ours, or the crate's if it was open before there was ours, until it is
//! carried.
//!
//! For a store that keeps similar numbers well when they lie together, a tree file is
//! rearranged, all forms first, then all attributes and so on, by [`to_columns`], and put back
//! byte for byte by [`from_columns`].
//!
//! A draft in which operators are not chosen yet has pairs that stand whatever is chosen, and
//! pairs that depend on it: [`Tree::with_open`].
//!
//! Nests that double prettyplease's work with each level do not double it here.

mod binding;
pub mod boundary;
pub mod build;
mod open;
mod open_sheet;
mod prevented;
mod preview;
mod refusal;
pub mod text;
mod tree;

pub use binding::{Binding, Lean};
use model::sizes::{file_bytes, MOST_NODES};
#[doc(inline)]
pub use model::{codes, codes::Token, contexts, forms, sizes, CalleeOrder};
pub use open::{Answer, Ops};
pub use open_sheet::OpenSheet;
pub use prevented::{Prevented, Reading};
pub use preview::{Preview, Sight};
pub use refusal::Refusal;
use std::cmp::Ordering;
pub use tree::{Node, Row, Tree, Written};

/// The rows of a tree file, node 1 first.
///
/// ```
/// // (a + b) * c
/// let name = [26, 0, 0, 0, 0, 0];
/// let file = [&[0, 5, 5, 0, 2, 2, 3, 0, 5, 0, 0, 4, 5, 0][..], &name, &name, &name].concat();
/// let rows = tezhukor::rows(&file)?;
/// assert!(rows[1].has_outer_pair());
/// assert_eq!(rows[1].precedence, 11);
/// # Ok::<(), tezhukor::Refusal>(())
/// ```
pub fn rows(file: &[u8]) -> Result<Vec<Row>, Refusal> {
    Ok(Tree::load(file)?.rows())
}

/// The tokens of the tree file of a plain tree ([`codes`]).
///
/// ```
/// use tezhukor::{Refusal, Token};
/// // A name with symbol 7, and a block, which is not plain.
/// assert_eq!(tezhukor::tokens(&[0, 1, 26, 0, 0, 0, 0, 7]), Ok(vec![Token::new(32, 7)]));
/// assert_eq!(tezhukor::tokens(&[0, 1, 6, 0, 0, 0, 0, 0]), Err(Refusal::NotPlain));
/// ```
pub fn tokens(file: &[u8]) -> Result<Vec<Token>, Refusal> {
    Tree::load(file)?.tokens()
}

/// How one tree file stands to another: contexts first, then nodes in turn, number by
/// number. Equal are only files of equal bytes. A refusal is the first file's, or else
/// the second's.
///
/// ```
/// use std::cmp::Ordering::*;
/// let (path, lit) = ([0, 1, 26, 0, 0, 0, 0, 0], [0, 1, 20, 0, 0, 0, 0, 0]);
/// assert_eq!(tezhukor::cmp(&path, &lit), Ok(Greater));
/// assert_eq!(tezhukor::cmp(&path, &path), Ok(Equal));
/// assert_eq!(tezhukor::cmp(&[0, 0], &[]), Err(tezhukor::Refusal::Count));
/// assert_eq!(tezhukor::cmp(&path, &[]), Err(tezhukor::Refusal::Header));
/// ```
pub fn cmp(first: &[u8], second: &[u8]) -> Result<Ordering, Refusal> {
    Ok(boundary::done(boundary::compare(first, second))?.cmp(&1))
}

/// The rearranged file of a tree file: its header, then all forms, each as its difference from
/// the one before, all attributes, all details, all first and all second operands, each as its
/// distance from its owner, and all symbols. A difference d is held as 2 d, or as -2 d - 1
/// where it is negative. The bytes do not tell which of the two a file is.
///
/// ```
/// // offset - (station - start)
/// let name = |symbol| [26, 0, 0, 0, 0, symbol];
/// let nodes = [[5, 0, 1, 2, 3, 0], name(1), [5, 0, 1, 4, 5, 0], name(2), name(3)];
/// let file = [&[0, 5][..], &nodes.concat()].concat();
/// let columns = tezhukor::to_columns(&file)?;
/// assert_eq!(columns[2..7], [10, 42, 41, 42, 0]);
/// assert_eq!(tezhukor::from_columns(&columns)?, file);
/// # Ok::<(), tezhukor::Refusal>(())
/// ```
pub fn to_columns(file: &[u8]) -> Result<Vec<u8>, Refusal> {
    rearranged_by(boundary::columns::to_columns, file)
}

/// The tree file that a rearranged file comes from: its own bytes.
///
/// ```
/// use tezhukor::Refusal;
/// assert_eq!(tezhukor::from_columns(&[0, 1, 52, 0, 0, 0, 0, 7]), Ok(vec![0, 1, 26, 0, 0, 0, 0, 7]));
/// // A first form below 0, which comes before what is wrong with the attributes.
/// assert_eq!(tezhukor::from_columns(&[0, 1, 1, 9, 0, 0, 0, 0]), Err(Refusal::Restored));
/// ```
pub fn from_columns(columns: &[u8]) -> Result<Vec<u8>, Refusal> {
    rearranged_by(boundary::columns::from_columns, columns)
}

fn rearranged_by(rearrange: fn(&[u8], &mut [u8]) -> u32, file: &[u8]) -> Result<Vec<u8>, Refusal> {
    let mut bytes = vec![0; file_bytes(MOST_NODES)];
    let length = boundary::done(rearrange(file, &mut bytes))?;
    bytes.truncate(length.into());
    Ok(bytes)
}

/// The tree file of a token list's reading in a context.
///
/// ```
/// use tezhukor::{codes::tokens, contexts::*, tree_file, Refusal, Token};
/// let name = [Token::new(32, 7)];
/// assert_eq!(tree_file(NONE, &name), Ok(vec![0, 1, 26, 0, 0, 0, 0, 7]));
/// assert_eq!(tree_file(CONDITION, &name), Ok(vec![3, 1, 26, 0, 0, 0, 0, 7]));
/// assert_eq!(tree_file(STATEMENT, &name), Err(Refusal::NotPlain));
/// // Only names, literals and numbered members have symbols.
/// assert_eq!(tree_file(NONE, &[Token::new(29, 7), Token::new(32, 7)]), Err(Refusal::Tokens));
/// // Comparisons do not chain.
/// assert_eq!(tree_file(NONE, &tokens(&[32, 13, 32, 13, 32])), Err(Refusal::NoReading));
/// // A comma after the last argument changes nothing: `f(a,)` is `f(a)`.
/// let without = tree_file(NONE, &tokens(&[32, 35, 32, 36]));
/// assert_eq!(tree_file(NONE, &tokens(&[32, 35, 32, 39, 36])), without);
/// ```
pub fn tree_file(context: u16, tokens: &[Token]) -> Result<Vec<u8>, Refusal> {
    Ok(Tree::read(context, tokens)?.to_file())
}
