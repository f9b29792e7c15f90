//! Trees with all that is made for them before the clock starts, and what is lent.

use crate::clock::Clock;
use crate::measure::Timed;
use crate::sets::Set;
use crate::sheets::Sheet;
use crate::sides::Side;
use model::edit::{Asked, Lengths};
use model::forms::{Class, PATH};
use model::generate::{open, Dice};
use model::open::Entry;
use model::sizes::{
    file_bytes, ENTRY_CELLS, LAST_OPERATOR, MOST_CELLS, MOST_ENTRIES, MOST_NODES, NODE_CELLS,
    ROW_CELLS, TOKEN_CELLS, TOKEN_CELLS_PER_NODE,
};
use model::written::without_parens;
use model::{columns, table, CalleeOrder, NodeTable};
use oracle::direct::{context_of_root, Context};
use oracle::{BuiltTree, Row};
use std::hint::black_box;
use tezhukor::boundary::{self, edits};

const SEED: u64 = 3;

/// The number of our callee order.
const OURS: u16 = 1;

/// What replaces a node has up to so many nodes.
const SECOND_NODES: u16 = 10;

/// A tree, and what is asked of it.
pub struct Case {
    pub tree: NodeTable,
    /// The crate's tree, and the context of its root.
    pub built: BuiltTree,
    pub context: Context,
    pub file: Vec<u8>,
    pub columns: Vec<u8>,
    /// The cells of its tokens; none where it is not plain.
    pub tokens: Vec<u16>,
    /// Its table and right rows in buffers with room for the edit's result.
    pub roomy: Vec<u16>,
    pub rows: Vec<u16>,
    node: u16,
    second: NodeTable,
    pub result: NodeTable,
    /// Up to three of its Binaries with `+` or `-` left open.
    pub entries: Vec<u16>,
    pub operator: u16,
}

/// What is lent, again and again: room for the largest tree.
pub struct Lent {
    pub cells: Vec<u16>,
    pub rows: Vec<u16>,
    pub bytes: Vec<u8>,
    pub tokens: Vec<u16>,
    pub answers: Vec<u16>,
}

impl Lent {
    pub fn new() -> Self {
        Lent {
            cells: vec![0; MOST_CELLS],
            rows: vec![0; ROW_CELLS * MOST_NODES],
            bytes: vec![0; file_bytes(MOST_NODES)],
            tokens: vec![0; TOKEN_CELLS_PER_NODE * MOST_NODES],
            answers: vec![0; MOST_NODES],
        }
    }

    /// A table and rows as long as the open sheet's.
    pub fn for_edit(&mut self, case: &Case) -> [&mut [u16]; 2] {
        [&mut self.cells[..case.roomy.len()], &mut self.rows[..case.rows.len()]]
    }
}

impl Case {
    /// The tree at some place of its set.
    pub fn new(at: u64, tree: NodeTable, lent: &mut Lent) -> Self {
        let edit = edit_of(at, &tree);
        let result = edit.result().expect("an edit that is done");
        let room = Lengths::of(tree.count.max(result.count));
        let (mut roomy, mut rows) = (tree.cells.clone(), vec![0; room.rows]);
        roomy.resize(room.table, 0);
        assert_eq!(decide(&tree, &mut rows), 0);
        let nodes = open::binaries(&tree, &mut Dice::new(SEED, at)).into_iter();
        let plus_or_minus = |node| Entry { node, lowest: 0, highest: 1 }.cells();
        let mut case = Case {
            built: BuiltTree::new(tree.count, &tree.cells),
            context: context_of_root(tree.context),
            file: table::write(&tree),
            columns: columns::write(&tree),
            tokens: Vec::new(),
            roomy,
            rows,
            node: edit.node,
            second: edit.second,
            result,
            entries: nodes.take(MOST_ENTRIES).flat_map(plus_or_minus).collect(),
            operator: (at % u64::from(LAST_OPERATOR + 1)) as u16,
            tree,
        };
        if let Ok(written) = boundary::counted(Side::Write.ask(&case, lent)) {
            case.tokens = lent.tokens[..TOKEN_CELLS * usize::from(written.tokens)].to_vec();
        }
        case
    }

    pub fn sheet(&self) -> edits::Sheet {
        edits::Sheet { context: self.tree.context, count: self.tree.count, order: OURS }
    }

    pub fn edit(&self) -> edits::Edit<'_> {
        let NodeTable { context, count, cells } = &self.second;
        edits::Edit { node: self.node, context: *context, count: *count, table: cells }
    }

    /// tezhukor_decide_open with such entries.
    pub fn open(&self, entries: &[u16], answers: &mut [u16]) -> u16 {
        let entered = (entries.len() / ENTRY_CELLS) as u16;
        edits::decide_open(self.sheet(), &self.tree.cells, entered, entries, answers)
    }

    pub fn nodes(&self) -> u64 {
        self.tree.count.into()
    }

    pub fn expressions(&self) -> u64 {
        let is_expression = |&node: &u16| table::class(&self.tree.cells, node) == Class::Expression;
        (1..=self.tree.count).filter(is_expression).count() as u64
    }

    pub fn tokens(&self) -> u64 {
        (self.tokens.len() / TOKEN_CELLS) as u64
    }

    /// Stops unless the tree is loaded from its files, saved numbered, equal to itself,
    /// rearranged and put back, has the rows that the crate's files give with our test of a
    /// callee, also where it is carried, and the outer pairs of these where no operator is left
    /// open; is read from its tokens without its own parentheses, and its edit gives the result.
    pub fn check(&self, lent: &mut Lent) {
        let done = |side: Side, lent: &mut Lent| {
            let reply = side.ask(self, lent);
            usize::from(boundary::done(reply as u32).expect("accepted"))
        };
        for side in [Side::Load, Side::LoadColumns] {
            lent.cells.fill(0);
            done(side, lent);
            assert_eq!(lent.cells[..self.tree.cells.len()], self.tree.cells[..]);
        }
        let saved = table::write(&self.tree.numbered());
        let files = [
            (Side::Save, &saved),
            (Side::ToColumns, &self.columns),
            (Side::FromColumns, &self.file),
        ];
        for (side, meant) in files {
            let bytes = done(side, lent);
            assert_eq!(lent.bytes[..bytes], meant[..]);
        }
        assert_eq!(done(Side::Compare, lent), 1);
        let theirs = self.built.printed(CalleeOrder::Ours, self.context).into_iter();
        let theirs: Vec<u16> =
            theirs.flat_map(|row| Row::cells(&row.unwrap_or_default())).collect();
        assert_eq!(Side::Checks.ask(self, lent), 12);
        for (side, reply) in [(Side::Decide, 0), (Side::Carry, 1)] {
            lent.rows.fill(0);
            assert_eq!(side.ask(self, lent), reply);
            assert!(lent.rows[..theirs.len()] == theirs, "other rows for {:?}", self.tree);
        }
        assert_eq!(Side::Open.ask(self, lent), 0);
        assert_eq!(Side::Closed.ask(self, lent), 0);
        let outer = theirs.chunks(ROW_CELLS).map(|row| row[0] % 2);
        assert!(outer.eq(lent.answers[..usize::from(self.tree.count)].iter().copied()));
        for side in [Side::Edit, Side::Preview] {
            lent.cells.fill(0);
            assert_eq!(done(side, lent), usize::from(self.result.count));
            assert_eq!(lent.cells[..self.result.cells.len()], self.result.cells[..]);
        }
        assert_eq!(Side::DecideResult.ask(self, lent), 0);
        if !self.tokens.is_empty() {
            let cells = NODE_CELLS * done(Side::Read, lent);
            assert!(lent.cells[..cells] == without_parens(&self.tree));
        }
    }
}

/// An edit of a tree, at a node taken at random: by turns a name and a formula of a few nodes
/// comes to stand there, a name also where there is no room for more.
fn edit_of(at: u64, tree: &NodeTable) -> Asked {
    let is_full = usize::from(tree.count + SECOND_NODES) > MOST_NODES;
    let name = NodeTable { context: 0, count: 1, cells: vec![PATH, 0, 0, 0, 0, 1] };
    let formulas = (at..).map(|index| Sheet::made(SEED, index, Sheet::make));
    let second = match { formulas }.find(|formula| formula.count <= SECOND_NODES) {
        Some(formula) if at % 2 == 1 && !is_full => formula,
        _ => name,
    };
    let mut dice = Dice::new(SEED, at);
    let mut asked = Asked { sheet: tree.clone(), order: OURS, rows: Vec::new(), node: 1, second };
    loop {
        asked.node = dice.between(1, tree.count.into()) as u16;
        if asked.result().is_ok() {
            return asked;
        }
    }
}

/// tezhukor_decide of a table, with such rows.
pub fn decide(tree: &NodeTable, rows: &mut [u16]) -> u16 {
    boundary::decide(tree.context, tree.count, &tree.cells, rows)
}

/// Trees that take turns.
type Group = Vec<Case>;

/// A set's trees in groups, and what is lent to them.
pub struct Cases {
    groups: Vec<Group>,
    lent: Lent,
}

impl Cases {
    /// In groups of up to so many nodes each.
    pub fn new(set: &Set, group_nodes: u64) -> Self {
        let mut cases = Cases { groups: Vec::new(), lent: Lent::new() };
        let nodes = |group: &Group| group.iter().map(Case::nodes).sum::<u64>();
        for (at, tree) in (0..).zip(set.trees()) {
            let case = Case::new(at, tree, &mut cases.lent);
            match cases.groups.last_mut() {
                Some(group) if nodes(group) + case.nodes() <= group_nodes => group.push(case),
                _ => cases.groups.push(vec![case]),
            }
        }
        cases
    }

    /// The sum of something over all trees.
    pub fn sum(&self, of: fn(&Case) -> u64) -> u64 {
        self.groups.iter().flatten().map(of).sum()
    }

    pub fn is_plain(&self) -> bool {
        self.groups.iter().flatten().all(|case| !case.tokens.is_empty())
    }

    /// The sides that such trees have: none writes and reads if some are not plain, and none
    /// leaves operators open if there are no Binaries.
    pub fn sides(&self) -> Vec<Side> {
        let is_open = self.groups.iter().flatten().any(|case| !case.entries.is_empty());
        let is_asked = |side: &Side| match side {
            Side::Write | Side::Read => self.is_plain(),
            Side::Open => is_open,
            _ => true,
        };
        Side::ALL.into_iter().filter(is_asked).collect()
    }

    pub fn check(&mut self) {
        let Cases { groups, lent } = self;
        groups.iter().flatten().for_each(|case| case.check(lent));
    }

    /// One side so many times for each tree.
    pub fn ask(&mut self, side: Side, times: u64) {
        for group in &self.groups {
            (0..times).for_each(|_| asked_once(group, &mut self.lent, side));
        }
    }
}

impl Timed for Cases {
    fn time(&mut self, side: Side, repeats: u64) -> u64 {
        let mut nanoseconds = 0;
        for group in &self.groups {
            asked_once(group, &mut self.lent, side);
            let clock = Clock::start();
            (0..repeats).for_each(|_| asked_once(group, &mut self.lent, side));
            nanoseconds += clock.nanoseconds();
        }
        nanoseconds
    }
}

/// One side, once for each tree. valgrind finds it by its name.
#[inline(never)]
#[no_mangle]
fn asked_once(cases: &[Case], lent: &mut Lent, side: Side) {
    for case in cases {
        black_box(side.ask(black_box(case), lent));
    }
}
