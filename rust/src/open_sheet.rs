//! Open sheets: trees that are edited, with their rows.

use crate::boundary::{self, edits};
use crate::text::{Names, Text};
use crate::{CalleeOrder, Preview, Refusal, Row, Tree};
use model::sizes::{MOST_CELLS, MOST_NODES, NODE_CELLS, ROW_CELLS};

/// A tree that is held open with its rows and the callee order that they are worked out in:
/// ours, but for a sheet that was open before there was one ([`OpenSheet::resume`]). It has
/// room for the most nodes.
///
/// ```
/// use tezhukor::{OpenSheet, Refusal, Tree};
/// # fn main() -> Result<(), Refusal> {
/// // a - b, and c - a in place of b.
/// let name = |symbol| [26, 0, 0, 0, 0, symbol];
/// let head = [0, 3, 5, 0, 1, 2, 3, 0];
/// let minus = |left: [u8; 6], right: [u8; 6]| [&head[..], &left, &right].concat();
/// let mut sheet = OpenSheet::load(&minus(name(1), name(2)))?;
/// let second = Tree::load(&minus(name(3), name(1)))?;
/// sheet.edit(3, &second)?;
/// assert_eq!(sheet.text(&Default::default()).as_str(), "a - (c - a)");
/// assert_eq!(sheet.tree().count(), 5);
/// // What is refused changes nothing.
/// assert_eq!(sheet.edit(6, &second), Err(Refusal::NamedNode));
/// assert_eq!(sheet.tree().count(), 5);
/// # Ok(())
/// # }
/// ```
#[derive(Clone, Debug)]
pub struct OpenSheet {
    context: u16,
    count: u16,
    order: CalleeOrder,
    pub(crate) table: Vec<u16>,
    rows: Vec<u16>,
}

/// Opened now, so in our order.
impl From<Tree> for OpenSheet {
    fn from(tree: Tree) -> OpenSheet {
        let rows = tree.rows();
        OpenSheet::resume(tree, &rows, CalleeOrder::Ours)
    }
}

impl OpenSheet {
    /// Opens a tree file. Its nodes keep their numbers up to the first edit.
    pub fn load(file: &[u8]) -> Result<OpenSheet, Refusal> {
        Ok(Tree::load(file)?.into())
    }

    /// Takes over a sheet that is open already: its tree, its rows, whatever they are, and the
    /// order that it holds, the crate's if it was opened before there was ours. It goes on
    /// with that order until it is carried.
    ///
    /// ```
    /// use tezhukor::{CalleeOrder, OpenSheet, Refusal, Tree};
    /// # fn main() -> Result<(), Refusal> {
    /// // A call of a group over a named field, and its rows as they were.
    /// let nodes = [[8, 0, 0, 2, 0, 0], [15, 0, 0, 3, 0, 0], [13, 0, 0, 4, 0, 0], [26, 0, 0, 0, 0, 0]];
    /// let tree = Tree::load(&[&[0, 4][..], &nodes.concat()].concat())?;
    /// let mut rows = tree.rows();
    /// rows[1].pair = 0;
    /// let mut sheet = OpenSheet::resume(tree.clone(), &rows, CalleeOrder::Crate);
    /// assert_eq!(sheet.text(&Default::default()).as_str(), "a.b()");
    /// sheet.carry();
    /// assert_eq!(sheet.order(), CalleeOrder::Ours);
    /// assert_eq!(sheet.text(&Default::default()).as_str(), "(a.b)()");
    /// assert_eq!((sheet.tree(), sheet.rows()), (tree.clone(), tree.rows()));
    /// # Ok(())
    /// # }
    /// ```
    pub fn resume(tree: Tree, rows: &[Row], order: CalleeOrder) -> OpenSheet {
        let (context, count) = (tree.context(), tree.count());
        let mut rows: Vec<u16> = rows.iter().flat_map(|row| row.cells()).collect();
        rows.resize(ROW_CELLS * MOST_NODES, 0);
        let mut table = tree.cells;
        table.resize(MOST_CELLS, 0);
        OpenSheet { context, count, order, table, rows }
    }

    /// The callee order that it holds.
    pub fn order(&self) -> CalleeOrder {
        self.order
    }

    /// Carries it to our callee order: the tree and its numbers stay, and the rows become
    /// those of a fresh walk. A sheet that holds our order stays as it is.
    pub fn carry(&mut self) {
        let reply = edits::carry(self.header(), &self.table, &mut self.rows);
        // The table is accepted and the rows are long enough: nothing is refused.
        debug_assert_eq!(boundary::done(reply), Ok(1));
        self.order = CalleeOrder::Ours;
    }

    /// What it is beside its table and its rows.
    pub(crate) fn header(&self) -> edits::Sheet {
        let order = self.order.number();
        edits::Sheet { context: self.context, count: self.count, order }
    }

    /// Replaces what stands at a node, with all under it, by another tree, whose context
    /// is not used. The nodes are then numbered as in the file of the result, and the rows
    /// are worked out in the order that the sheet holds. Refused is
    /// [`Refusal::NamedNode`] or [`Refusal::EditedTree`], which changes nothing.
    pub fn edit(&mut self, node: u16, second: &Tree) -> Result<(), Refusal> {
        let (header, edit) = (self.header(), edit(node, second));
        let reply = edits::edit(header, &mut self.table, &mut self.rows, edit);
        self.count = boundary::done(reply)?;
        Ok(())
    }

    /// What [`OpenSheet::edit`] would give, which changes nothing.
    ///
    /// ```
    /// use tezhukor::{text::Names, OpenSheet, Refusal, Tree};
    /// # fn main() -> Result<(), Refusal> {
    /// // a - (b - c), and d in place of b - c.
    /// let name = |symbol| [26, 0, 0, 0, 0, symbol];
    /// let [outer, inner] = [[5, 0, 1, 2, 3, 0], [5, 0, 1, 4, 5, 0]];
    /// let nodes = [outer, name(1), inner, name(2), name(3)].concat();
    /// let sheet = OpenSheet::load(&[&[0, 5][..], &nodes].concat())?;
    /// let second = Tree::load(&[&[0, 1][..], &name(4)].concat())?;
    /// let sight = sheet.preview(3, &second)?.sight(&Names::default());
    /// assert_eq!(sight.before.as_str(), "a - (b - c)");
    /// assert_eq!(sight.after.as_str(), "a - d");
    /// assert!(sight.come.is_empty());
    /// assert_eq!([sight.go[0].open, sight.go[0].close], [4, 10]);
    /// # Ok(())
    /// # }
    /// ```
    pub fn preview(&self, node: u16, second: &Tree) -> Result<Preview, Refusal> {
        let mut result = [vec![0; MOST_CELLS], vec![0; ROW_CELLS * MOST_NODES]];
        let (own, edit) = ([&self.table[..], &self.rows], edit(node, second));
        let lent = result.each_mut().map(|cells| &mut cells[..]);
        let count = boundary::done(edits::preview(self.header(), own, edit, lent))?;
        let [table, rows] = result;
        let after = OpenSheet { context: self.context, count, order: self.order, table, rows };
        Ok(Preview::new(self, node, &after))
    }

    /// The tree as it is now.
    pub fn tree(&self) -> Tree {
        let cells = self.table[..NODE_CELLS * usize::from(self.count)].to_vec();
        Tree { context: self.context, cells }
    }

    /// The row of each node, node 1 first.
    pub fn rows(&self) -> Vec<Row> {
        let cells = self.rows.chunks_exact(ROW_CELLS);
        cells.take(self.count.into()).map(Row::of_cells).collect()
    }

    /// The tree as text, with the pairs of its rows.
    pub fn text(&self, names: &Names) -> Text {
        Text::new(&self.tree(), &self.rows(), names)
    }
}

/// An edit with a tree.
fn edit(node: u16, second: &Tree) -> edits::Edit<'_> {
    let (context, count) = (second.context(), second.count());
    edits::Edit { node, context, count, table: second.cells() }
}
