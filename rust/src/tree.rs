//! Accepted trees.

use crate::boundary::{self, Counted};
use crate::Refusal;
use model::codes::{self, Token};
use model::sizes::*;
use model::table;

/// A node: its form ([`crate::forms`]), attributes, detail, the numbers of its operands, 0
/// for none, and its symbol, 0 but on Path, Lit, Field, MethodCall and path types with a
/// segment. Nodes are numbered from 1, and operands above their owners.
#[derive(Copy, Clone, PartialEq, Eq, Hash, Debug, Default)]
pub struct Node {
    pub form: u16,
    pub attributes: u16,
    pub detail: u16,
    pub first: u16,
    pub second: u16,
    pub symbol: u16,
}

/// What is decided for a node. All are 0 for a type and a list link.
#[derive(Copy, Clone, PartialEq, Eq, Hash, Debug, Default)]
pub struct Row {
    /// 1 for an outer pair, plus 2 for an inner pair.
    pub pair: u16,
    /// From Jump 0 to Unambiguous 15.
    pub precedence: u16,
    pub previous_operator: u16,
    pub next_operator: u16,
    /// The ten booleans of the context, the first in bit 0.
    pub flags: u16,
}

impl Node {
    /// The node that has those cells in a table.
    pub fn of_cells(cells: &[u16]) -> Node {
        Node {
            form: cells[table::FORM],
            attributes: cells[table::ATTRIBUTES],
            detail: cells[table::DETAIL],
            first: cells[table::FIRST],
            second: cells[table::SECOND],
            symbol: cells[table::SYMBOL],
        }
    }

    /// Its cells in a table.
    pub fn cells(self) -> [u16; NODE_CELLS] {
        [self.form, self.attributes, self.detail, self.first, self.second, self.symbol]
    }
}

impl Row {
    /// The row that has those cells.
    pub fn of_cells(cells: &[u16]) -> Row {
        Row {
            pair: cells[0],
            precedence: cells[1],
            previous_operator: cells[2],
            next_operator: cells[3],
            flags: cells[4],
        }
    }

    /// Its cells.
    pub fn cells(self) -> [u16; ROW_CELLS] {
        [self.pair, self.precedence, self.previous_operator, self.next_operator, self.flags]
    }

    /// Whether the expression must be printed between parentheses.
    pub fn has_outer_pair(self) -> bool {
        self.pair & 1 == 1
    }

    /// Whether the expression is printed between parentheses behind its attributes.
    pub fn has_inner_pair(self) -> bool {
        self.pair & 2 == 2
    }
}

/// What is written for a plain tree.
#[derive(Clone, PartialEq, Eq, Hash, Debug)]
pub struct Written {
    pub tokens: Vec<Token>,
    /// How many pairs were added: as many as there are rows whose outer pair is 1, and as there
    /// are opening parentheses but those of Calls, MethodCalls and Parens. Of a tree without
    /// Parens in context 0 no other way of putting pairs round its operands, if it reads back
    /// as that tree, has fewer.
    pub pairs: u16,
}

/// A tree that is accepted: none of refusals 1 to 11 applies to it.
#[derive(Clone, PartialEq, Eq, Hash, Debug)]
pub struct Tree {
    pub(crate) context: u16,
    pub(crate) cells: Vec<u16>,
}

impl Tree {
    /// Loads a tree file.
    pub fn load(file: &[u8]) -> Result<Tree, Refusal> {
        Tree::loaded_by(boundary::load, file)
    }

    fn loaded_by(load: fn(&[u8], &mut [u16]) -> u32, file: &[u8]) -> Result<Tree, Refusal> {
        let mut cells = vec![0; MOST_CELLS];
        let done = boundary::done(load(file, &mut cells))?;
        let (context, count) = boundary::header(done);
        cells.truncate(NODE_CELLS * usize::from(count));
        Ok(Tree { context, cells })
    }

    /// Takes nodes, node 1 first, in a context ([`crate::contexts`]).
    pub fn new(context: u16, nodes: &[Node]) -> Result<Tree, Refusal> {
        let count = u16::try_from(nodes.len()).map_err(|_| Refusal::Count)?;
        let cells: Vec<u16> = nodes.iter().flat_map(|node| node.cells()).collect();
        // Without room for rows, a table that is accepted is refused for just that.
        match Refusal::numbered(boundary::decide(context, count, &cells, &mut [])) {
            None | Some(Refusal::Buffer) => Ok(Tree { context, cells }),
            Some(refusal) => Err(refusal),
        }
    }

    /// The reading of a token list in a context, [`NONE`](crate::contexts::NONE) or
    /// [`CONDITION`](crate::contexts::CONDITION), each symbol on the node that its token names.
    pub fn read(context: u16, tokens: &[Token]) -> Result<Tree, Refusal> {
        let mut cells = vec![0; MOST_CELLS];
        let count = boundary::done(boundary::read(context, &codes::cells(tokens), &mut cells))?;
        cells.truncate(NODE_CELLS * usize::from(count));
        Ok(Tree { context, cells })
    }

    /// The context ([`crate::contexts`]).
    pub fn context(&self) -> u16 {
        self.context
    }

    /// How many nodes there are, links included.
    pub fn count(&self) -> u16 {
        (self.cells.len() / NODE_CELLS) as u16
    }

    /// The node table, [`NODE_CELLS`] cells a node.
    pub fn cells(&self) -> &[u16] {
        &self.cells
    }

    /// A node by its number from 1 on, if there is one.
    pub fn node(&self, number: u16) -> Option<Node> {
        let at = usize::from(number).checked_sub(1)?;
        self.cells.chunks_exact(NODE_CELLS).nth(at).map(Node::of_cells)
    }

    /// The row of each node, node 1 first.
    pub fn rows(&self) -> Vec<Row> {
        let count = usize::from(self.count());
        let mut rows = vec![0; ROW_CELLS * count];
        // The table is accepted and the buffer is long enough: the reply is 0.
        let reply = boundary::decide(self.context, self.count(), &self.cells, &mut rows);
        debug_assert_eq!(reply, 0);
        rows.chunks_exact(ROW_CELLS).map(Row::of_cells).collect()
    }

    /// The tokens of a plain tree in context 0 or 3, with the pairs that it needs and the
    /// nodes' symbols. Refused is only what is not plain, and any other context
    /// ([`Refusal::NotPlain`]).
    pub fn tokens(&self) -> Result<Vec<Token>, Refusal> {
        Ok(self.written()?.tokens)
    }

    /// The same with how many pairs there are.
    ///
    /// ```
    /// use tezhukor::{codes::tokens, contexts::NONE, Tree};
    /// // a - ((b - c)): of the two pairs one does.
    /// let tree = Tree::read(NONE, &tokens(&[32, 1, 35, 35, 32, 1, 32, 36, 36]))?;
    /// let written = tree.written()?;
    /// assert_eq!(written.tokens, tokens(&[32, 1, 35, 32, 1, 32, 36]));
    /// assert_eq!(written.pairs, 1);
    /// # Ok::<(), tezhukor::Refusal>(())
    /// ```
    pub fn written(&self) -> Result<Written, Refusal> {
        let mut cells = vec![0; TOKEN_CELLS_PER_NODE * usize::from(self.count())];
        let reply = boundary::write(self.context, self.count(), &self.cells, &mut cells);
        let Counted { tokens, pairs } = boundary::counted(reply)?;
        cells.truncate(TOKEN_CELLS * usize::from(tokens));
        Ok(Written { tokens: Token::of_cells(&cells), pairs })
    }

    /// The tree file: one for each context and tree, however its nodes are numbered
    /// here. In the file they are numbered from the root on, the first operand's before
    /// the second's.
    pub fn to_file(&self) -> Vec<u8> {
        let mut file = vec![0; file_bytes(self.count().into())];
        let reply = boundary::save(self.context, self.count(), &self.cells, &mut file);
        // The table is accepted and the buffer long enough: nothing is refused.
        file.truncate(boundary::done(reply).map_or(0, usize::from));
        file
    }

    /// Loads a rearranged file ([`crate::to_columns`]).
    ///
    /// ```
    /// use tezhukor::{Refusal, Tree};
    /// // a + b
    /// let tree = Tree::load(&[0, 3, 5, 0, 0, 2, 3, 0, 26, 0, 0, 0, 0, 1, 26, 0, 0, 0, 0, 2])?;
    /// assert_eq!(Tree::from_columns(&tree.to_columns())?, tree);
    /// // The same bytes are a Block as a tree file and an Async as a rearranged one.
    /// let bytes = [0, 1, 6, 0, 0, 0, 0, 0];
    /// assert_ne!(Tree::load(&bytes)?, Tree::from_columns(&bytes)?);
    /// # Ok::<(), tezhukor::Refusal>(())
    /// ```
    pub fn from_columns(columns: &[u8]) -> Result<Tree, Refusal> {
        Tree::loaded_by(boundary::columns::load_columns, columns)
    }

    /// The rearranged file of the tree: that of its file, so one for each context and tree,
    /// however its nodes are numbered here.
    pub fn to_columns(&self) -> Vec<u8> {
        // What is saved is accepted.
        crate::to_columns(&self.to_file()).unwrap_or_default()
    }

    /// The tree with its nodes numbered as in its file: equal for trees that are equal
    /// but for the numbering.
    ///
    /// ```
    /// use tezhukor::Tree;
    /// // a + b: its operands numbered in order, and the other way round.
    /// let tree = Tree::load(&[0, 3, 5, 0, 0, 2, 3, 0, 26, 0, 0, 0, 0, 0, 20, 0, 0, 0, 0, 0])?;
    /// let other = Tree::load(&[0, 3, 5, 0, 0, 3, 2, 0, 20, 0, 0, 0, 0, 0, 26, 0, 0, 0, 0, 0])?;
    /// assert_ne!(tree, other);
    /// assert_eq!(tree, other.canonical());
    /// assert_eq!(tree.to_file(), other.to_file());
    /// # Ok::<(), tezhukor::Refusal>(())
    /// ```
    pub fn canonical(&self) -> Tree {
        // What is saved is accepted, with the same context.
        Tree::load(&self.to_file()).unwrap_or_else(|_| self.clone())
    }
}
