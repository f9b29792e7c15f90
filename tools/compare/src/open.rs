//! Operators that are not chosen yet: tezhukor_decide_open in both callee orders beside the
//! crate's own pairs over all choices; and that operators of one class have the same rows.

use model::forms::{operator::*, *};
use model::generate::{open, Dice, Family, Fill, SmallTrees, Stem};
use model::lent::Cell;
use model::open::{choices, choices_of_classes, class, Asked, Entry};
use model::sizes::{LAST_BINARY, LAST_REFUSAL, NODE_CELLS};
use model::table::DETAIL;
use model::{CalleeOrder, NodeTable};
use oracle::direct::context_of_root;
use oracle::{BuiltTree, Row};
use tezhukor::boundary::edits::{decide_open, Sheet};

/// Of so many choices all are asked of the crate, of more one of each class.
const MOST_CHOICES: usize = 200;

/// Each so many-th of those with more choices has all of them asked all the same.
const WHOLE: u64 = 400;

/// Binaries and what tells operators apart on either side of them.
const STEMS: [Stem; 13] = [
    Stem::leaf(PATH, 0, 0),
    Stem::leaf(RANGE, 0, 0),
    Stem::leaf(BREAK, 0, 0),
    Stem::two(BINARY, 0, ADD),
    Stem::two(BINARY, 2, LT),
    Stem::new(CAST, 0, 0, [Fill::Hole, Fill::Leaf(model::generate::Label::of(TYPE_PATH))]),
    Stem::one(UNARY, 0, 2),
    Stem::one(GROUP, 0, 0),
    Stem::one(FIELD, 0, 0),
    Stem::one(CALL, 0, 0),
    Stem::one(LET, 0, 0),
    Stem::new(RANGE, 0, 0, [Fill::Nothing, Fill::Hole]),
    Stem::two(ASSIGN, 0, 0),
];

/// The most nodes of the small trees.
const NODES: usize = 5;

/// Fewer of them, for trees of more nodes, which can have three Binaries.
const FEW_STEMS: [Stem; 8] =
    [STEMS[0], STEMS[1], STEMS[3], STEMS[5], STEMS[6], STEMS[7], STEMS[8], STEMS[9]];
const MORE_NODES: usize = 7;

/// What was asked.
#[derive(Default)]
struct Tally {
    by_refusal: [u64; LAST_REFUSAL as usize + 1],
    by_entered: [u64; 4],
    by_answer: [u64; 3],
    /// Choices of which the crate was asked for all pairs, and how often they were all choices.
    choices: u64,
    whole: u64,
    different: u64,
}

/// The crate's rows of a tree.
fn rows(tree: &NodeTable, order: CalleeOrder) -> Vec<Row> {
    let built = BuiltTree::new(tree.count, &tree.cells);
    built.rows(order, &[context_of_root(tree.context)]).remove(0)
}

impl Tally {
    /// Asks both sides, and looks at every cell that is lent.
    fn compare(&mut self, asked: &Asked) {
        let refusal = asked.refusal();
        let mut cells: Vec<u16> = (0..asked.lent).map(Cell::pattern).collect();
        let mut wanted = cells.clone();
        if refusal == 0 {
            let answers = self.answers(asked);
            wanted[..answers.len()].copy_from_slice(&answers);
            self.by_entered[usize::from(asked.entered)] += 1;
            answers.iter().for_each(|&answer| self.by_answer[usize::from(answer)] += 1);
        }
        let NodeTable { context, count, cells: table } = &asked.table;
        let sheet = Sheet { context: *context, count: *count, order: asked.order };
        let reply = decide_open(sheet, table, asked.entered, &asked.entries, &mut cells);
        self.by_refusal[usize::from(refusal)] += 1;
        if (reply, &cells) != (refusal, &wanted) {
            self.different += 1;
            println!("open: {reply}, {cells:?}, not {refusal}, {wanted:?}: {asked:?}");
        }
    }

    /// By the crate's rows for each choice.
    fn answers(&mut self, asked: &Asked) -> Vec<u16> {
        let entries = asked.entries();
        let widths = entries.iter().map(|entry| usize::from(entry.highest - entry.lowest) + 1);
        let is_small = widths.product::<usize>() <= MOST_CHOICES;
        let all: u64 = self.by_refusal.iter().sum();
        let choices = match is_small || all % WHOLE == 0 && asked.table.count <= 12 {
            true => choices(&entries),
            false => choices_of_classes(&entries),
        };
        self.whole += u64::from(is_small);
        self.choices += choices.len() as u64;
        let order = CalleeOrder::numbered(asked.order);
        asked.answers(choices, |tree| {
            rows(tree, order).iter().map(|row| row.pair & 1 == 1).collect()
        })
    }

    fn print(&self, name: &str) -> u64 {
        let replies: Vec<String> = (0..self.by_refusal.len())
            .filter(|&reply| self.by_refusal[reply] > 0)
            .map(|reply| format!("{reply}: {}", self.by_refusal[reply]))
            .collect();
        let Tally { by_entered, by_answer, choices, whole, different, .. } = self;
        println!("{name}: by reply {}; different {different}", replies.join(", "));
        println!("  by entries, 0 to 3: {by_entered:?}; choices {choices}, of all of them {whole}");
        println!("  never, always, depends: {by_answer:?}");
        *different
    }
}

/// Whether the rows of a tree are the same for all operators of one class at a Binary, in both
/// orders. Gives how many trees had other rows, and how many operators were tried.
fn compare_classes(trees: impl Iterator<Item = NodeTable>, dice: &mut Dice) -> [u64; 2] {
    let [mut different, mut tried] = [0; 2];
    for mut tree in trees {
        let Some(&node) = open::binaries(&tree, dice).first() else {
            continue;
        };
        let detail = NODE_CELLS * (usize::from(node) - 1) + DETAIL;
        for order in CalleeOrder::ALL {
            let mut first: [Option<Vec<Row>>; model::open::CLASSES] = Default::default();
            for operator in 0..=LAST_BINARY {
                tree.cells[detail] = operator;
                let rows = rows(&tree, order);
                tried += 1;
                if *first[class(operator)].get_or_insert_with(|| rows.clone()) != rows {
                    different += 1;
                    println!("operator {operator} has rows of its own at node {node} of {tree:?}");
                }
            }
        }
    }
    println!("rows by operator {tried}, unlike those of their class {different}");
    [different, tried]
}

/// Each refusal alone and with each later one.
fn compare_faults(tally: &mut Tally, dice: &mut Dice) {
    let ways = |number: usize| (0..open::fault(number).1).map(move |way| (number, way));
    for first in (0..open::FAULTS).flat_map(ways) {
        tally.compare(&open::faulty(&[first], dice));
        for later in (first.0 + 1..open::FAULTS).flat_map(ways) {
            tally.compare(&open::faulty(&[first, later], dice));
        }
    }
}

/// Drafts with so many choices or some more. Gives how often something differs.
pub fn compare(most: u64, seed: u64) -> u64 {
    let dice = &mut Dice::new(seed, 0);
    let mut faults = Tally::default();
    compare_faults(&mut faults, dice);
    let mut different = faults.print("each refusal with each later one");
    let trees = SmallTrees::new(STEMS.to_vec(), NODES);
    let tree = |index: u64| trees.tree((index % 4) as u16, index);
    let mut tally = Tally::default();
    for tree in (0..trees.len()).map(tree) {
        // One entry of all operators, and up to three of some.
        for &node in &open::binaries(&tree, dice) {
            let full = Entry { node, lowest: 0, highest: LAST_BINARY };
            tally.compare(&Asked::new(tree.clone(), node % 2, &[full]));
        }
        tally.compare(&open::asked(tree, dice));
    }
    different += tally.print(&format!("every tree of up to {NODES} nodes over 13 labels"));
    different += compare_classes((0..trees.len()).step_by(7).map(tree), dice)[0];
    let more = SmallTrees::new(FEW_STEMS.to_vec(), MORE_NODES);
    let step = (50 * more.len() / most.max(1)).max(1);
    let mut several = Tally::default();
    for index in (0..more.len()).step_by(step as usize) {
        let tree = more.tree((index % 4) as u16, index);
        // Those with three are few.
        let times = [0, 0, 2, 60][open::binaries(&tree, dice).len()];
        (0..times).for_each(|_| several.compare(&open::asked(tree.clone(), dice)));
    }
    different += several
        .print(&format!("trees of up to {MORE_NODES} nodes over 8 labels, two Binaries and more"));
    let mut random = Tally::default();
    let families = [Family::Random, Family::Scans, Family::Plain, Family::Callees];
    for index in 0.. {
        if tally.choices + several.choices + random.choices >= most {
            break;
        }
        let tree = families[(index % 4) as usize].tree(seed, index / 4);
        let has_binary = !open::binaries(&tree, dice).is_empty();
        if tree.count <= 60 && (has_binary || index % 64 == 0) {
            random.compare(&open::asked(tree, dice));
        }
    }
    different += random.print(&format!("random trees of up to 60 nodes, seed {seed}"));
    let some = (0..most / 2_000).map(|index| Family::Scans.tree(seed + 1, index));
    different + compare_classes(some.filter(|tree| tree.count <= 60), dice)[0]
}
