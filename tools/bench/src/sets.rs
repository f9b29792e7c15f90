//! The trees that are timed.

use crate::sheets::Sheet;
use model::forms::{operator::*, *};
use model::generate::{
    call_of, levels, open, planted, Dice, Draft, Family, Fill, Label, Order, Slot, Stem,
    LONGEST_NEST,
};
use model::sizes::{MOST_ENTRIES, MOST_LEVELS, MOST_NODES};
use model::{accept, NodeTable};

/// What a set is for.
#[derive(Copy, Clone, PartialEq, Eq, Debug)]
pub enum Kind {
    /// All sizes and shapes, the largest among them.
    Shapes,
    /// Formulas of the size of surveyors' expressions.
    Surveyors,
    /// `a - (b - c)`, and many of it.
    Differences,
    /// Sheets to be edited.
    Edits,
    /// Trees with operators to be left open.
    Open,
}

/// A named set of trees.
pub struct Set {
    pub name: &'static str,
    kind: Kind,
    make: fn() -> Vec<NodeTable>,
}

impl Set {
    const fn new(kind: Kind, name: &'static str, make: fn() -> Vec<NodeTable>) -> Self {
        Set { name, kind, make }
    }

    /// The sets of a kind, with their numbers.
    pub fn of(kind: Kind) -> impl Iterator<Item = (usize, &'static Set)> {
        SETS.iter().enumerate().filter(move |(_, set)| set.kind == kind)
    }

    /// The trees, all of them accepted.
    pub fn trees(&self) -> Vec<NodeTable> {
        let trees = (self.make)();
        assert!(trees.iter().all(|tree| accept::refusal(tree) == 0), "{}", self.name);
        trees
    }
}

pub static SETS: [Set; 23] = [
    Set::new(Kind::Shapes, "mixed trees of 4,096 nodes", || {
        largest(&[Family::Random, Family::Scans])
    }),
    Set::new(Kind::Shapes, "plain trees of 4,096 nodes", || largest(&[Family::Plain])),
    Set::new(Kind::Shapes, "small mixed trees, up to 10 nodes", || small(Family::Mixed)),
    Set::new(Kind::Shapes, "small plain trees, up to 10 nodes", || small(Family::Plain)),
    Set::new(Kind::Shapes, "right-nested binaries, path of 128", || {
        OPERATORS.map(|operator| chain(&[Stem::right(BINARY, 0, operator)])).to_vec()
    }),
    Set::new(Kind::Shapes, "left-nested binaries, path of 128", || {
        OPERATORS.map(|operator| chain(&[Stem::left(BINARY, 0, operator)])).to_vec()
    }),
    Set::new(Kind::Shapes, "prefixes, path of 128", || {
        let (negated, borrowed) = (Stem::one(UNARY, 0, 2), Stem::one(REFERENCE, 0, 0));
        vec![chain(&[negated]), chain(&[borrowed]), chain(&[negated, borrowed])]
    }),
    Set::new(Kind::Shapes, "ranges nested by their ends, 16 levels", || {
        vec![nest(Stem::left(ASSIGN, 0, 0), NAME), nest(Stem::one(FIELD, 0, 0), BARE)]
    }),
    Set::new(Kind::Shapes, "a call of 2,047 names", || vec![call(CALL, &[Label::of(PATH)])]),
    Set::new(Kind::Shapes, "a method call of 1,023 sums", || {
        let sum = [Label::new(BINARY, 0, ADD), Label::of(PATH), Label::of(PATH)];
        vec![call(METHOD_CALL, &sum)]
    }),
    Set::new(Kind::Surveyors, "5 nodes", || formulas(5..=5)),
    Set::new(Kind::Surveyors, "10 nodes", || formulas(9..=11)),
    Set::new(Kind::Surveyors, "20 nodes", || formulas(18..=22)),
    Set::new(Kind::Surveyors, "40 nodes", || formulas(36..=44)),
    Set::new(Kind::Differences, "`a - (b - c)`", || vec![numbered(&planted(DIFFERENCE))]),
    Set::new(Kind::Differences, "a call of 600 of it", || {
        vec![numbered(&call_of(&mut vec![DIFFERENCE.to_vec(); 600].into_iter().peekable()))]
    }),
    Set::new(Kind::Edits, "sheets of about 10 nodes", || about(3, 10).take(400).collect()),
    Set::new(Kind::Edits, "sheets of about 40 nodes", || about(3, 40).take(200).collect()),
    Set::new(Kind::Edits, "sheets of about 160 nodes", || about(3, 160).take(60).collect()),
    Set::new(Kind::Edits, "sheets of about 4,096 nodes", || {
        about(3, MOST_NODES as u16).take(6).collect()
    }),
    Set::new(Kind::Open, "trees of about 10 nodes", || with_binaries(10).take(200).collect()),
    Set::new(Kind::Open, "trees of about 40 nodes", || with_binaries(40).take(100).collect()),
    Set::new(Kind::Open, "trees of about 160 nodes", || with_binaries(160).take(30).collect()),
];

const SEED: u64 = 1;

/// `a - (b - c)`: a right operand that takes a pair.
const DIFFERENCE: [Stem; 3] = [Stem::right(BINARY, 0, SUB), Stem::right(BINARY, 0, SUB), NAME];

/// 300 formulas of so many nodes, with their own names.
fn formulas(sizes: std::ops::RangeInclusive<u16>) -> Vec<NodeTable> {
    let sheets = (0..).map(|index| Sheet::made(SEED, index, Sheet::make));
    sheets.filter(|sheet| sizes.contains(&sheet.count)).take(300).collect()
}

/// Trees of all kinds that have so many nodes, or a tenth less.
fn about(seed: u64, size: u16) -> impl Iterator<Item = NodeTable> {
    let mixed = (0..).map(move |index| Family::Mixed.tree(seed, index));
    mixed.filter(move |tree| (size - size / 10..=size).contains(&tree.count))
}

/// Such trees with as many Binaries as can be left open.
pub fn with_binaries(size: u16) -> impl Iterator<Item = NodeTable> {
    let binaries = |tree: &NodeTable| open::binaries(tree, &mut Dice::new(SEED, 0)).len();
    about(5, size).filter(move |tree| binaries(tree) >= MOST_ENTRIES)
}

/// One that leans left, one that is loose, and one that takes no chains.
const OPERATORS: [u16; 3] = [SUB, AND, EQ];

pub const NAME: Stem = Stem::leaf(PATH, 0, 0);
pub const BARE: Stem = Stem::leaf(RANGE, 0, 0);
pub const RANGE_TO: Stem = Stem::new(RANGE, 0, 0, [Fill::Nothing, Fill::Hole]);

/// Twelve trees of as many nodes as there may be, of some families by turns.
fn largest(families: &[Family]) -> Vec<NodeTable> {
    let full = |family: &Family| {
        let family = *family;
        (0..)
            .map(move |index| family.tree(SEED, index))
            .filter(|tree| usize::from(tree.count) == MOST_NODES)
    };
    families.iter().flat_map(|family| full(family).take(12 / families.len())).collect()
}

/// Trees of up to 10 nodes.
fn small(family: Family) -> Vec<NodeTable> {
    let trees = (0..).map(|index| family.tree(SEED, index));
    trees.filter(|tree| tree.count <= 10).take(2_000).collect()
}

/// Stems by turns, each in the open place of the one before, and a name at the
/// end of the longest path that is accepted.
fn chain(stems: &[Stem]) -> NodeTable {
    let above = stems.iter().copied().cycle().take(MOST_LEVELS - 1);
    numbered(&planted(above.chain([NAME])))
}

/// Ranges nested by their ends below a stem: as many as double the crate's work
/// so often as differential runs allow.
fn nest(above: Stem, end: Stem) -> NodeTable {
    let draft = (1..)
        .map(|length| planted([above].into_iter().chain(vec![RANGE_TO; length]).chain([end])))
        .find(|draft| levels(draft) == LONGEST_NEST);
    numbered(&draft.expect("longer nests double more"))
}

/// A call with as many arguments as there is room for. An argument is a node with
/// a leaf in each of its places.
fn call(form: u16, argument: &[Label]) -> NodeTable {
    let mut draft = Draft::new(Label::of(form));
    draft.put(Slot { owner: 0, place: 0 }, Label::of(PATH));
    let mut rest = Slot { owner: 0, place: 1 };
    while draft.nodes.len() + 1 + argument.len() <= MOST_NODES {
        let link = draft.put(rest, Label::of(LINK));
        let owner = draft.put(Slot { owner: link, place: 0 }, argument[0]);
        for (place, &leaf) in argument[1..].iter().enumerate() {
            draft.put(Slot { owner, place }, leaf);
        }
        rest = Slot { owner: link, place: 1 };
    }
    numbered(&draft)
}

/// Numbered as the token reader numbers.
pub fn numbered(draft: &Draft) -> NodeTable {
    draft.number(0, Order::Printing, &mut Dice::new(SEED, 0))
}
