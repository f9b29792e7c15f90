//! The numbers of tables, token lists and files, each by its name, once.

/// Cells of a node in a node table: form, attributes, detail, first, second, symbol.
pub const NODE_CELLS: usize = 6;

/// The highest symbol of a node that may have one.
pub const MOST_SYMBOL: u16 = 65_535;

/// Cells of a row: pair, precedence, previous operator, next operator, flags.
pub const ROW_CELLS: usize = 5;

/// Cells of a token in a token list: code, symbol.
pub const TOKEN_CELLS: usize = 2;

/// The most tokens that are written for a node.
pub const TOKENS_PER_NODE: usize = 6;

/// The most nodes of a table, list links included.
pub const MOST_NODES: usize = 4_096;

/// The most tokens of a list.
pub const MOST_TOKENS: usize = 24_576;

/// The most nodes of a path from the root, list links not counted.
pub const MOST_LEVELS: usize = 128;

/// The most bytes of a tree file.
pub const MOST_FILE_BYTES: usize = 65_536;

/// The largest code of a token.
pub const LAST_CODE: u16 = 46;

/// The last of the contexts that a header can name.
pub const LAST_CONTEXT: u16 = 3;

/// The last refusal.
pub const LAST_REFUSAL: u16 = 22;

/// The most operators that can be left open.
pub const MOST_ENTRIES: usize = 3;

/// Cells of an entry, which leaves an operator open: node, lowest, highest.
pub const ENTRY_CELLS: usize = 3;

/// The last operator of a Binary.
pub const LAST_BINARY: u16 = 27;

/// A reply of one number is the refusal times this, or without one what was done.
pub const REFUSAL_UNIT: u32 = 65_536;

/// The reply of writing is the refusal times this, or without one the number of pairs times
/// [`PAIRS_UNIT`], and the number of tokens.
pub const WRITTEN_UNIT: u64 = 1 << 32;

/// See [`WRITTEN_UNIT`].
pub const PAIRS_UNIT: u64 = 1 << 16;

/// The reply to a file that is loaded is its context times this, and the count.
pub const CONTEXT_UNIT: u16 = 8_192;

/// The most bytes of an accepted table's header in its file, rearranged or not: one for the
/// context, two for the count.
pub const HEADER_BYTES: usize = 3;

/// The most bytes of a node there: one for each of form, attributes and detail, two for each
/// operand, three for the symbol.
pub const NODE_BYTES: usize = 10;

/// Bytes that are enough for the tree file of so many nodes.
pub const fn file_bytes(nodes: usize) -> usize {
    HEADER_BYTES + NODE_BYTES * nodes
}

/// The last number of an operator: Binary's are 0 to 27, 28 is `=`, and this is Range's.
pub const LAST_OPERATOR: u16 = 29;

/// The answer for a number that is no operator's.
pub const NO_OPERATOR: u16 = 65_535;

/// The answer for an operator is its level times this, and its lean.
pub const LEVEL_UNIT: u16 = 4;

/// Cells that are lent for the tokens of a node.
pub const TOKEN_CELLS_PER_NODE: usize = TOKEN_CELLS * TOKENS_PER_NODE;

/// Cells of the largest table.
pub const MOST_CELLS: usize = NODE_CELLS * MOST_NODES;
