//! A tree through every function: load and decide, save and compare, columns and back, an edit
//! with a part of the tree before it, and where it is plain write and read. All is held beside
//! the model and the crate's own rows.

use model::contexts::{self, NONE};
use model::edit::Asked;
use model::forms::Class;
use model::generate::{Dice, Draft, Order};
use model::sizes::ROW_CELLS;
use model::written::{is_plain, Written};
use model::{columns, table, CalleeOrder, NodeTable};
use oracle::rows_of;
use tezhukor::boundary::questions;
use tezhukor::{OpenSheet, Refusal, Row, Tree};

/// Of so many differences all is told.
const TOLD: u64 = 20;

/// What was asked.
#[derive(Default)]
pub struct Checks {
    pub trees: u64,
    pub rows: u64,
    /// Trees whose rows differ in the two callee orders.
    pub apart: u64,
    pub bytes: u64,
    pub column_bytes: u64,
    pub edits: u64,
    /// Edits that are refused, all by 18.
    pub refused: u64,
    pub plain: u64,
    pub tokens: u64,
    pub different: u64,
    /// The tree before.
    before: Option<NodeTable>,
}

impl Checks {
    pub fn print(&self) {
        let Checks { trees, rows, apart, bytes, column_bytes, edits, refused, .. } = self;
        println!("distinct trees: {trees}");
        println!("  rows {rows}, trees with other rows in the crate's callee order {apart}");
        println!("  tree files {bytes} bytes, columns {column_bytes} bytes");
        println!("  edits {edits}, of them refused by 18 {refused}");
        println!("  plain {}, written as {} tokens and read back", self.plain, self.tokens);
        println!("  different {}", self.different);
    }

    /// Holds two answers beside each other.
    fn same<T: PartialEq>(&mut self, what: &str, tree: &NodeTable, ours: &T, meant: &T) {
        if ours != meant {
            self.different += 1;
            if self.different <= TOLD {
                println!("{what}: {tree:?}");
            }
        }
    }

    /// Takes an accepted tree, numbered from the root on, through all functions.
    pub fn tree(&mut self, tree: &NodeTable) {
        self.trees += 1;
        let loaded = Tree::load(&table::write(tree));
        self.same("loaded", tree, &loaded.as_ref().map(shown), &Ok(tree.clone()));
        self.decided(tree);
        if let Ok(loaded) = loaded {
            let dice = &mut Dice::new(1, self.trees);
            self.saved(tree, &loaded, dice);
            self.rearranged(tree, &loaded);
            self.edited(tree, loaded, dice);
        }
        if is_plain(tree) {
            self.written(tree);
        }
        self.before = Some(tree.clone());
    }

    /// The rows in both callee orders beside the crate's own.
    fn decided(&mut self, tree: &NodeTable) {
        let [crates, ours] = CalleeOrder::ALL.map(|order| {
            let mut rows = vec![0; ROW_CELLS * usize::from(tree.count)];
            let number = order.number();
            let (context, count, cells) = (tree.context, tree.count, &tree.cells[..]);
            let reply = questions::decide_by_order(number, context, count, cells, &mut rows);
            let meant = (0, rows_of(tree, order));
            self.same("decided", tree, &(reply, rows), &meant);
            meant.1
        });
        self.rows += u64::from(tree.count);
        self.apart += u64::from(crates != ours);
        let decided = Tree::load(&table::write(tree)).map(|tree| cells_of(&tree.rows()));
        self.same("rows", tree, &decided, &Ok(ours));
    }

    /// Saved it has its own bytes, under any numbering; it stands to the tree before it as the
    /// model says, and to itself as equal.
    fn saved(&mut self, tree: &NodeTable, loaded: &Tree, dice: &mut Dice) {
        let file = table::write(tree);
        self.bytes += file.len() as u64;
        self.same("saved", tree, &loaded.to_file(), &file);
        let other = Draft::of(tree).number(tree.context, Order::any(dice), dice);
        let saved = Tree::load(&table::write(&other)).map(|other| other.to_file());
        self.same("saved under another numbering", tree, &saved, &Ok(file.clone()));
        for second in [Some(tree.clone()), self.before.clone()].into_iter().flatten() {
            let order = tezhukor::cmp(&file, &table::write(&second));
            self.same("compared", tree, &order, &Ok(tree.cmp(&second)));
        }
    }

    fn rearranged(&mut self, tree: &NodeTable, loaded: &Tree) {
        let made = loaded.to_columns();
        self.column_bytes += made.len() as u64;
        self.same("columns", tree, &made, &columns::write(tree));
        self.same("put back", tree, &tezhukor::from_columns(&made), &Ok(table::write(tree)));
        let back = Tree::from_columns(&made);
        self.same("loaded from columns", tree, &back.as_ref().map(shown), &Ok(tree.clone()));
    }

    /// Puts a part of the tree before into the tree, in one callee order or the other, after a
    /// preview.
    fn edited(&mut self, tree: &NodeTable, loaded: Tree, dice: &mut Dice) {
        let Some(before) = &self.before else {
            return;
        };
        let node = any_expression(tree, dice);
        let second = part(before, any_expression(before, dice));
        let order = dice.pick(&CalleeOrder::ALL);
        let rows = rows_of(tree, order);
        let Ok(replacing) = Tree::load(&table::write(&second)) else {
            return self.same("a part", tree, &false, &true);
        };
        let asked = Asked { sheet: tree.clone(), order: order.number(), rows, node, second };
        let meant = asked.result().map(|result| {
            let rows = rows_of(&result, order);
            (result, rows)
        });
        let rows: Vec<Row> = asked.rows.chunks_exact(ROW_CELLS).map(Row::of_cells).collect();
        let mut sheet = OpenSheet::resume(loaded, &rows, order);
        let preview = sheet.preview(node, &replacing);
        let seen = preview.map(|preview| (shown(preview.tree()), cells_of(preview.rows())));
        self.same("previewed", tree, &seen.map_err(Refusal::number), &meant);
        let done = sheet.edit(node, &replacing);
        let done = done.map(|()| (shown(&sheet.tree()), cells_of(&sheet.rows())));
        self.same("edited", tree, &done.map_err(Refusal::number), &meant);
        self.edits += 1;
        self.refused += u64::from(meant.is_err());
    }

    /// The tokens of a plain tree, in context 0 where it is a statement or a match arm, and
    /// what is read from them.
    fn written(&mut self, tree: &NodeTable) {
        let tree = &in_plain_context(tree);
        self.plain += 1;
        let pairs = rows_of(tree, CalleeOrder::Ours);
        let pairs: Vec<bool> = pairs.chunks_exact(ROW_CELLS).map(|row| row[0] == 1).collect();
        let meant = Written::new(tree, &pairs);
        self.tokens += meant.tokens.len() as u64;
        let written = Tree::load(&table::write(tree)).and_then(|tree| tree.written());
        let counted = written.map(|written| (written.tokens, usize::from(written.pairs)));
        self.same("written", tree, &counted, &Ok((meant.tokens.clone(), meant.pairs.len())));
        let read = Tree::read(tree.context, &meant.tokens);
        self.same("read", tree, &read.as_ref().map(shown), &Ok(tree.clone()));
    }
}

/// The tree in a context in which plain tokens are written: its own, or 0.
pub fn in_plain_context(tree: &NodeTable) -> NodeTable {
    let is_plain = contexts::PLAIN.contains(&tree.context);
    NodeTable { context: if is_plain { tree.context } else { NONE }, ..tree.clone() }
}

fn shown(tree: &Tree) -> NodeTable {
    NodeTable { context: tree.context(), count: tree.count(), cells: tree.cells().to_vec() }
}

fn cells_of(rows: &[Row]) -> Vec<u16> {
    rows.iter().flat_map(|row| row.cells()).collect()
}

fn any_expression(tree: &NodeTable, dice: &mut Dice) -> u16 {
    let is_expression = |&node: &u16| table::class(&tree.cells, node) == Class::Expression;
    let nodes: Vec<u16> = (1..=tree.count).filter(is_expression).collect();
    dice.pick(&nodes)
}

/// A node and all under it, as a tree of its own.
fn part(tree: &NodeTable, node: u16) -> NodeTable {
    let mut draft = Draft::of(tree);
    draft.nodes.swap(0, usize::from(node) - 1);
    draft.number(tree.context, Order::Printing, &mut Dice::new(0, 0))
}
