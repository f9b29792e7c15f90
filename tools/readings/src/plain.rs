//! Plain trees: all with a certain number of nodes over a set of labels, by
//! number, and random ones.

use model::contexts::NONE;
use model::forms::{self, *};
use model::generate::{symbols, Dice, Family};
use model::sizes::NODE_CELLS;
use model::table::{NodeTable, FIRST};

/// What stands in a place of a plain tree.
#[derive(Copy, Clone, PartialEq, Eq, Debug)]
enum Part {
    Expression,
    Type,
    /// Lists with at least one item.
    Expressions,
    Types,
}

use Part::{Expression, Expressions, Type, Types};

/// A node with the parts of its operands.
#[derive(Copy, Clone, Debug)]
struct Stem {
    part: Part,
    form: u16,
    detail: u16,
    operands: [Option<Part>; 2],
}

/// All plain trees over a set of labels.
pub struct PlainTrees {
    stems: Vec<Stem>,
    /// How many of a part have exactly so many nodes, links included.
    counts: [Vec<u128>; 4],
}

impl PlainTrees {
    fn new(stems: Vec<Stem>, most_nodes: usize) -> Self {
        let mut trees = PlainTrees { stems, counts: [(); 4].map(|()| vec![0]) };
        for nodes in 1..=most_nodes {
            for part in [Expression, Type, Expressions, Types] {
                let count = trees.of(part).map(|stem| trees.below(&stem, nodes)).sum();
                trees.counts[part as usize].push(count);
            }
        }
        trees
    }

    /// All labels but Struct: all operators, prefixes, members, types, and lists of any
    /// length.
    pub fn every(most_nodes: usize) -> Self {
        PlainTrees::new(PlainTrees::every_stem(), most_nodes)
    }

    /// All labels, Struct among them.
    pub fn every_and_struct(most_nodes: usize) -> Self {
        PlainTrees::new(and_struct(PlainTrees::every_stem()), most_nodes)
    }

    fn every_stem() -> Vec<Stem> {
        let binary: Vec<u16> = (0..28).collect();
        let ones = [
            (PAREN, 0),
            (UNARY, 0),
            (UNARY, 1),
            (UNARY, 2),
            (REFERENCE, 0),
            (REFERENCE, 1),
            (FIELD, 0),
            (FIELD, 1),
            (TRY, 0),
            (AWAIT, 0),
        ];
        let types = [
            (TYPE_PTR, 0),
            (TYPE_PTR, 1),
            (TYPE_REFERENCE, 0),
            (TYPE_REFERENCE, 1),
            (TYPE_INFER, 0),
            (TYPE_NEVER, 0),
        ];
        stems(&[PATH, LIT], &binary, &ones, &types)
    }

    /// One label for each level, lean and rule: the operators `-`, `*`, `<<`, `>>`,
    /// `&`, `^`, `|`, `<`, `==`, `&&`, `||` and `+=`, one prefix, both members, `?`,
    /// and one type that goes before another.
    pub fn kinds(most_nodes: usize) -> Self {
        PlainTrees::new(PlainTrees::kinds_of_stems(), most_nodes)
    }

    /// The same and Struct.
    pub fn kinds_and_struct(most_nodes: usize) -> Self {
        PlainTrees::new(and_struct(PlainTrees::kinds_of_stems()), most_nodes)
    }

    fn kinds_of_stems() -> Vec<Stem> {
        let binary = [1, 2, 5, 6, 7, 8, 9, 10, 11, 12, 13, 18];
        let ones = [(PAREN, 0), (UNARY, 2), (FIELD, 0), (FIELD, 1), (TRY, 0)];
        stems(&[PATH], &binary, &ones, &[(TYPE_REFERENCE, 0)])
    }

    /// What the special rules speak of: `-`, `<`, `<<`, `=`, casts, members, calls.
    pub fn narrow(most_nodes: usize) -> Self {
        PlainTrees::new(PlainTrees::narrow_stems(), most_nodes)
    }

    /// The same and Struct.
    pub fn narrow_and_struct(most_nodes: usize) -> Self {
        PlainTrees::new(and_struct(PlainTrees::narrow_stems()), most_nodes)
    }

    fn narrow_stems() -> Vec<Stem> {
        let ones = [(UNARY, 2), (FIELD, 0)];
        stems(&[PATH], &[1, 10, 13], &ones, &[(TYPE_REFERENCE, 0)])
    }

    fn of(&self, part: Part) -> impl Iterator<Item = Stem> + '_ {
        self.stems.iter().copied().filter(move |stem| stem.part == part)
    }

    fn count(&self, part: Part, nodes: usize) -> u128 {
        self.counts[part as usize][nodes]
    }

    /// How many have this stem at their root.
    fn below(&self, stem: &Stem, nodes: usize) -> u128 {
        let rest = nodes - 1;
        match stem.operands {
            [None, None] => u128::from(rest == 0),
            [Some(part), None] | [None, Some(part)] => self.count(part, rest),
            [Some(first), Some(second)] => {
                (1..rest).map(|n| self.count(first, n) * self.count(second, rest - n)).sum()
            }
        }
    }

    /// How many trees have exactly so many nodes, links included.
    pub fn with(&self, nodes: usize) -> u128 {
        self.count(Expression, nodes)
    }

    /// The tree with so many nodes and a number from 0 on, its nodes numbered as
    /// written, with symbols by its number, in context 0.
    pub fn tree(&self, nodes: usize, index: u128) -> NodeTable {
        let mut cells = Vec::with_capacity(NODE_CELLS * nodes);
        self.plant(Expression, nodes, index, &mut cells);
        let mut table = NodeTable { context: NONE, count: nodes as u16, cells };
        symbols(&mut table, &mut Dice::new(nodes as u64, index as u64));
        table
    }

    /// One of the trees with so many nodes, each as likely as another.
    pub fn any(&self, nodes: usize, dice: &mut Dice) -> NodeTable {
        let half = |dice: &mut Dice| dice.below(1 << 62) as u128;
        let number = half(dice) << 62 | half(dice);
        self.tree(nodes, number % self.with(nodes))
    }

    fn plant(&self, part: Part, nodes: usize, mut index: u128, cells: &mut Vec<u16>) {
        let mut chosen = None;
        for stem in self.of(part) {
            let count = self.below(&stem, nodes);
            if index < count {
                chosen = Some(stem);
                break;
            }
            index -= count;
        }
        let stem = chosen.expect("a number below the count");
        let at = cells.len();
        cells.extend([stem.form, 0, stem.detail, 0, 0, 0]);
        let rest = nodes - 1;
        let mut put = |place: usize, part, nodes, index| {
            cells[at + FIRST + place] = (cells.len() / NODE_CELLS + 1) as u16;
            self.plant(part, nodes, index, cells);
        };
        match stem.operands {
            [None, None] => {}
            [Some(part), None] => put(0, part, rest, index),
            [None, Some(part)] => put(1, part, rest, index),
            [Some(first), Some(second)] => {
                for nodes in 1..rest {
                    let seconds = self.count(second, rest - nodes);
                    let both = self.count(first, nodes) * seconds;
                    if index < both {
                        put(0, first, nodes, index / seconds);
                        put(1, second, rest - nodes, index % seconds);
                        return;
                    }
                    index -= both;
                }
            }
        }
    }
}

/// The stems with these leaves, operators, forms with one operand, and types other
/// than paths. Assign, Index, Cast, calls and paths are always there.
fn stems(leaves: &[u16], binary: &[u16], ones: &[(u16, u16)], types: &[(u16, u16)]) -> Vec<Stem> {
    let stem = |part, form, detail, operands| Stem { part, form, detail, operands };
    let mut stems = Vec::new();
    let expression = Some(Expression);
    for &form in leaves {
        stems.push(stem(Expression, form, 0, [None, None]));
    }
    for &(form, detail) in ones {
        stems.push(stem(Expression, form, detail, [expression, None]));
    }
    for &operator in binary {
        stems.push(stem(Expression, BINARY, operator, [expression, expression]));
    }
    for form in [ASSIGN, INDEX] {
        stems.push(stem(Expression, form, 0, [expression, expression]));
    }
    stems.push(stem(Expression, CAST, 0, [expression, Some(Type)]));
    for form in [CALL, METHOD_CALL] {
        stems.push(stem(Expression, form, 0, [expression, None]));
        stems.push(stem(Expression, form, 0, [expression, Some(Expressions)]));
    }
    stems.push(stem(Type, TYPE_PATH, 1, [None, None]));
    stems.push(stem(Type, TYPE_PATH, 2, [None, None]));
    stems.push(stem(Type, TYPE_PATH, 2, [None, Some(Types)]));
    for &(form, detail) in types {
        let before = forms::places(form, detail)[0] == forms::Place::Type;
        stems.push(stem(Type, form, detail, [before.then_some(Type), None]));
    }
    for (list, item) in [(Expressions, Expression), (Types, Type)] {
        stems.push(stem(list, LINK, 0, [Some(item), None]));
        stems.push(stem(list, LINK, 0, [Some(item), Some(list)]));
    }
    stems
}

/// Labels with Struct behind them.
fn and_struct(mut stems: Vec<Stem>) -> Vec<Stem> {
    stems.push(Stem { part: Expression, form: STRUCT, detail: 0, operands: [None, None] });
    stems
}

/// Random plain trees of a family under any numbering, of up to so many nodes.
pub fn random(family: Family, seed: u64, most_nodes: u16) -> impl Iterator<Item = NodeTable> {
    let tree = move |index| family.tree(seed, index);
    (0..).map(tree).filter(move |tree| tree.count <= most_nodes)
}
