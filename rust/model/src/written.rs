//! What documents 01 and 02 say is written for a plain tree, once it is known where its
//! pairs stand; and the tree without its own parentheses.

use crate::accept;
use crate::codes::{self, has_symbol, Token, *};
use crate::contexts;
use crate::forms::{self, *};
use crate::sizes::{NODE_CELLS, TOKEN_CELLS_PER_NODE};
use crate::table::{self, Node, NodeTable, FIRST};

/// The tokens of a tree, and where the pairs stand that were added.
#[derive(Clone, PartialEq, Eq, Debug, Default)]
pub struct Written {
    pub tokens: Vec<Token>,
    pub pairs: Vec<[usize; 2]>,
}

impl Written {
    /// Writes an accepted plain tree, of whose nodes those have an outer pair.
    pub fn new(tree: &NodeTable, has_pair: &[bool]) -> Written {
        Written::with_commas(tree, has_pair, &[])
    }

    /// The same with a comma after the last item of each list whose last link is one of
    /// those, in order: never written, and read alike.
    pub fn with_commas(tree: &NodeTable, has_pair: &[bool], has_comma: &[u16]) -> Written {
        let pairs: Vec<usize> = has_pair.iter().map(|&has_pair| has_pair.into()).collect();
        Writer::written(tree, &pairs, has_comma)
    }

    /// Writes an accepted plain tree with so many pairs round each of its nodes.
    pub fn with_pairs(tree: &NodeTable, pairs: &[usize]) -> Written {
        Writer::written(tree, pairs, &[])
    }

    /// The tokens without one of the pairs, and no other token.
    pub fn without(&self, pair: [usize; 2]) -> Vec<Token> {
        let kept = |at: &usize| !pair.contains(at);
        (0..self.tokens.len()).filter(kept).map(|at| self.tokens[at]).collect()
    }
}

/// The last link of each list.
pub fn last_links(tree: &NodeTable) -> Vec<u16> {
    let is_last = |&number: &u16| {
        let node = table::node(&tree.cells, number);
        node.form == LINK && node.operands[1] == 0
    };
    (1..=tree.count).filter(is_last).collect()
}

struct Writer<'a> {
    cells: &'a [u16],
    /// How many stand round each node.
    pairs: &'a [usize],
    has_comma: &'a [u16],
    out: Written,
}

impl Writer<'_> {
    fn written(tree: &NodeTable, pairs: &[usize], has_comma: &[u16]) -> Written {
        let mut writer = Writer { cells: &tree.cells, pairs, has_comma, out: Written::default() };
        writer.node(1);
        writer.out
    }

    fn node(&mut self, number: u16) {
        if number == 0 {
            return;
        }
        let pairs = self.pairs[usize::from(number) - 1];
        let node = table::node(self.cells, number);
        let [before, between, behind] = signs(&node);
        let start = self.out.tokens.len();
        // Of a node's own tokens at most one has a symbol, which is the node's.
        let own = |code: u16| Token::new(code, if has_symbol(code) { node.symbol } else { 0 });
        self.out.tokens.extend(vec![Token::from(OPEN); pairs]);
        self.out.tokens.extend(before.into_iter().map(own));
        self.node(node.operands[0]);
        self.out.tokens.extend(between.into_iter().map(own));
        self.node(node.operands[1]);
        self.out.tokens.extend(behind.into_iter().map(own));
        if self.has_comma.binary_search(&number).is_ok() {
            self.out.tokens.push(COMMA.into());
        }
        for open in (start..start + pairs).rev() {
            self.out.pairs.push([open, self.out.tokens.len()]);
            self.out.tokens.push(CLOSE.into());
        }
    }
}

/// The codes of a node's own tokens: before its first operand, between the two, and behind.
fn signs(node: &Node) -> [Vec<u16>; 3] {
    let [before, between, behind]: [&[u16]; 3] = match (node.form, node.detail) {
        (PATH, _) | (TYPE_PATH, 1) => [&[NAME], &[], &[]],
        (TYPE_PATH, 2) => [&[NAME, LESS], &[], &[GREATER]],
        (LIT, _) => [&[LITERAL], &[], &[]],
        (forms::STRUCT, _) => [&[codes::STRUCT], &[], &[]],
        (PAREN, _) => [&[OPEN], &[CLOSE], &[]],
        (UNARY, 0) => [&[STAR], &[], &[]],
        (UNARY, 1) | (TYPE_NEVER, _) => [&[NOT], &[], &[]],
        (UNARY, _) => [&[MINUS], &[], &[]],
        (REFERENCE | TYPE_REFERENCE, 0) => [&[AND], &[], &[]],
        (REFERENCE | TYPE_REFERENCE, _) => [&[AND_MUT], &[], &[]],
        (BINARY, operator) => return [vec![], vec![operator], vec![]],
        (ASSIGN, _) => [&[], &[EQUALS], &[]],
        (CAST, _) => [&[], &[AS], &[]],
        (FIELD, 0) => [&[], &[DOT, NAME], &[]],
        (FIELD, _) => [&[], &[DOT, MEMBER], &[]],
        (INDEX, _) => [&[], &[OPEN_BRACKET], &[CLOSE_BRACKET]],
        (CALL, _) => [&[], &[OPEN], &[CLOSE]],
        (METHOD_CALL, _) => [&[], &[DOT, NAME, OPEN], &[CLOSE]],
        (TRY, _) => [&[], &[QUESTION], &[]],
        (forms::AWAIT, _) => [&[], &[DOT, codes::AWAIT], &[]],
        (TYPE_PTR, 0) => [&[STAR_CONST], &[], &[]],
        (TYPE_PTR, _) => [&[STAR_MUT], &[], &[]],
        (TYPE_INFER, _) => [&[UNDERSCORE], &[], &[]],
        (LINK, _) if node.operands[1] != 0 => [&[], &[COMMA], &[]],
        (LINK, _) => [&[], &[], &[]],
        _ => panic!("{node:?} is not plain"),
    };
    [before.to_vec(), between.to_vec(), behind.to_vec()]
}

/// What must be written for any node table with so many cells lent, or the refusal, if the
/// nodes of an accepted table have those pairs.
pub fn reply(
    tree: &NodeTable,
    lent: usize,
    pairs: impl Fn(&NodeTable) -> Vec<bool>,
) -> Result<Written, u16> {
    match accept::refusal(tree) {
        0 if lent < TOKEN_CELLS_PER_NODE * usize::from(tree.count) => Err(12),
        0 if !is_plain(tree) || !contexts::PLAIN.contains(&tree.context) => Err(13),
        0 => Ok(Written::new(tree, &pairs(tree))),
        refusal => Err(refusal),
    }
}

/// Whether all nodes of an accepted table are plain.
pub fn is_plain(tree: &NodeTable) -> bool {
    (1..=tree.count).map(|number| table::node(&tree.cells, number)).all(|node| {
        let form = match node.form {
            PATH
            | LIT
            | forms::STRUCT
            | PAREN
            | UNARY
            | REFERENCE
            | BINARY
            | ASSIGN
            | CAST
            | FIELD => true,
            INDEX | CALL | METHOD_CALL | TRY | forms::AWAIT => true,
            TYPE_PATH => matches!(node.detail, 1 | 2),
            TYPE_PTR | TYPE_REFERENCE | TYPE_INFER | TYPE_NEVER | LINK => true,
            _ => false,
        };
        form && node.attributes == 0
    })
}

/// The table of the tree without its own parentheses: owners before operands, and all
/// nodes of the first operand before those of the second.
pub fn without_parens(tree: &NodeTable) -> Vec<u16> {
    let mut cells = Vec::new();
    let mut waiting = vec![(1, None)];
    while let Some((number, owner)) = waiting.pop() {
        let mut node = table::node(&tree.cells, number);
        while node.form == PAREN {
            node = table::node(&tree.cells, node.operands[0]);
        }
        let start = cells.len();
        if let Some(place) = owner {
            cells[place] = (start / NODE_CELLS + 1) as u16;
        }
        cells.extend([node.form, node.attributes, node.detail, 0, 0, node.symbol]);
        for place in [1, 0] {
            if node.operands[place] != 0 {
                waiting.push((node.operands[place], Some(start + FIRST + place)));
            }
        }
    }
    cells
}
