//! Plain trees: what is written for one has one reading, the tree without its own
//! parentheses, and none that equals it with a pair left out.

use crate::makers;
use crate::ours::{Answer, Ours};
use crate::plain::{self, PlainTrees};
use crate::written::{self, written};
use model::chart::Chart;
use model::codes::{text, Token};
use model::commas;
use model::contexts::{self, NONE};
use model::generate::{Dice, Family};
use model::rules::Rules;
use model::sizes::{MOST_CELLS, MOST_FILE_BYTES, TOKEN_CELLS_PER_NODE};
use model::table::numbers;
use model::table::{self, NodeTable};
use model::written::without_parens;
use std::time::Instant;

/// What came of a set of trees.
#[derive(Default)]
pub struct Tally {
    pub trees: u64,
    pub tokens: u64,
    pub longest: usize,
    pub pairs: u64,
    /// Left-out pairs with which the tokens read as another tree.
    pub others: u64,
    pub different: u64,
    /// The differences with the shortest token list, so many of them as are shown.
    pub shown: Vec<(usize, String)>,
}

const SHOWN: usize = 3;

impl Tally {
    fn differs(&mut self, what: &str, tokens: &[Token]) {
        self.different += 1;
        self.shown.push((tokens.len(), format!("{what}: {}", text(tokens))));
        self.shown.sort_by_key(|shown| shown.0);
        self.shown.truncate(SHOWN);
    }

    /// Holds one tree to the rules, and our writer and reader to it.
    pub fn tree(&mut self, chart: &mut Chart, ours: &mut Ours, tree: &NodeTable) {
        let written = written(tree);
        let meant = without_parens(tree);
        let tokens = &written.tokens;
        self.trees += 1;
        self.tokens += tokens.len() as u64;
        self.longest = self.longest.max(tokens.len());
        if !commas::before_closing(tokens).is_empty() {
            self.differs("a comma after a last item", tokens);
        }
        chart.read(tokens);
        match &chart.readings(tree.context)[..] {
            [] => self.differs("no reading", tokens),
            [reading] if *reading == meant => {}
            [_] => self.differs("another reading", tokens),
            _ => self.differs("several readings", tokens),
        }
        for &pair in &written.pairs {
            self.pairs += 1;
            let left_out = written.without(pair);
            chart.read(&left_out);
            let readings = chart.readings(tree.context);
            self.others += u64::from(!readings.is_empty());
            // By shape: a pair is not needed because of a symbol.
            if readings.iter().any(|reading| erased(reading) == erased(&meant)) {
                self.differs("a needless pair", tokens);
            }
        }
        let lent = TOKEN_CELLS_PER_NODE * usize::from(tree.count) + self.trees as usize % 3;
        if ours.write(tree, lent).is_some_and(|ours| !ours.is(Ok(&written))) {
            self.differs("we write otherwise", tokens);
        }
        if ours.read(tree.context, tokens, MOST_CELLS).is_some_and(|ours| ours != Ok(meant)) {
            self.differs("we read otherwise", tokens);
        }
    }

    fn print(&self, name: &str, context: u16, start: Instant) {
        println!(
            "{name}, context {context}: trees {}, tokens {}, longest {}, pairs left out {}, another tree {}, none {}, \
             different {}, {} s",
            self.trees,
            self.tokens,
            self.longest,
            self.pairs,
            self.others,
            self.pairs - self.others,
            self.different,
            start.elapsed().as_secs(),
        );
        for (_, shown) in &self.shown {
            println!("  {shown}");
        }
    }
}

/// A table with all symbols 0.
fn erased(cells: &[u16]) -> Vec<u16> {
    let mut cells = cells.to_vec();
    table::erase(&mut cells);
    cells
}

/// A set of trees: labels, the nodes of the largest, and a context.
pub struct Set {
    pub name: &'static str,
    pub trees: PlainTrees,
    pub most_nodes: usize,
    pub context: u16,
}

impl Set {
    pub fn each(&self, mut visit: impl FnMut(&NodeTable)) {
        for nodes in 1..=self.most_nodes {
            for index in 0..self.trees.with(nodes) {
                visit(&NodeTable { context: self.context, ..self.trees.tree(nodes, index) });
            }
        }
    }

    /// The set in words.
    pub fn words(&self) -> String {
        format!("{} up to {} nodes", self.name, self.most_nodes)
    }
}

/// The sets that are gone through whole, so many nodes smaller than they could be.
pub fn sets(smaller: usize) -> Vec<Set> {
    let set = |name, trees: fn(usize) -> PlainTrees, most: usize, context| {
        let most_nodes = most - smaller;
        Set { name, trees: trees(most_nodes), most_nodes, context }
    };
    let mut sets = vec![
        set("every label", PlainTrees::every, 6, NONE),
        set("kinds of labels", PlainTrees::kinds, 7, NONE),
        set("narrow", PlainTrees::narrow, 8, NONE),
    ];
    for context in contexts::PLAIN {
        sets.extend([
            set("every label and Struct", PlainTrees::every_and_struct, 5, context),
            set("kinds of labels and Struct", PlainTrees::kinds_and_struct, 6, context),
            set("narrow and Struct", PlainTrees::narrow_and_struct, 7, context),
        ]);
    }
    sets
}

/// Which random trees: without Structs in context 0, or with them in a context.
#[derive(Copy, Clone, PartialEq, Eq, Debug)]
pub enum Structs {
    Without,
    In(u16),
}

impl Structs {
    pub const ALL: [Structs; 3] =
        [Structs::Without, Structs::In(NONE), Structs::In(contexts::CONDITION)];

    pub fn context(self) -> u16 {
        match self {
            Structs::Without => NONE,
            Structs::In(context) => context,
        }
    }

    fn words(self) -> &'static str {
        match self {
            Structs::Without => "without Structs",
            Structs::In(_) => "with Structs",
        }
    }
}

/// Random trees: so many of each kind, with up to so many tokens.
pub struct Random {
    pub structs: Structs,
    pub seed: u64,
    pub trees: u64,
    pub most_tokens: usize,
}

impl Random {
    pub fn each(&self, mut visit: impl FnMut(&NodeTable)) {
        let Random { structs, seed, trees, most_tokens } = *self;
        let context = structs.context();
        let (family, labels) = match structs {
            Structs::Without => (
                Family::Plain,
                [PlainTrees::every(20), PlainTrees::kinds(20), PlainTrees::narrow(20)],
            ),
            Structs::In(_) => (
                Family::Structs,
                [
                    PlainTrees::every_and_struct(20),
                    PlainTrees::kinds_and_struct(20),
                    PlainTrees::narrow_and_struct(20),
                ],
            ),
        };
        let put = |tree: NodeTable| NodeTable { context, ..tree };
        let short = |tree: &NodeTable| written(tree).tokens.len() <= most_tokens;
        let drawn = plain::random(family, seed, most_tokens as u16).map(put);
        for tree in drawn.filter(short).take(trees as usize) {
            visit(&tree);
        }
        for labels in labels {
            let drawn = (0..).map(|index| {
                let dice = &mut Dice::new(seed, index);
                put(labels.any(7 + dice.below(14), dice))
            });
            for tree in drawn.filter(short).take(trees as usize) {
                visit(&tree);
            }
        }
    }

    /// The trees in words.
    pub fn words(&self) -> String {
        format!("random up to {} tokens, {}", self.most_tokens, self.structs.words())
    }
}

/// Node tables, plain or not, with enough cells lent or too few: our writer's reply
/// beside document 01's. Gives how many differ.
fn replies(ours: &mut Ours, tables: u64, seed: u64) -> u64 {
    let mut counts = [0u64; 17];
    let mut different = 0;
    for index in 0..tables {
        let dice = &mut Dice::new(seed, index);
        let tree = makers::table(dice, seed);
        if !ours.is_lent() && !written::fits_a_file(&tree) {
            continue;
        }
        let needed = TOKEN_CELLS_PER_NODE * usize::from(tree.count);
        let lent = if dice.percent(10) { needed.saturating_sub(1) } else { needed };
        let lent = if ours.is_lent() { lent } else { needed };
        let reply = written::reply(&tree, lent);
        counts[usize::from(*reply.as_ref().err().unwrap_or(&0))] += 1;
        let is_meant = |ours: Answer| ours.is(reply.as_ref().map_err(|&refusal| refusal));
        if !ours.write(&tree, lent).is_none_or(is_meant) {
            different += 1;
            if different <= 3 {
                println!("  our reply is not {reply:?} for {tree:?}");
            }
        }
    }
    let refused: Vec<String> = (1..).zip(&counts[1..]).map(|(n, c)| format!("{n}: {c}")).collect();
    println!(
        "tables, plain or not: {}, written {}, refused by {}, different {different}",
        counts.iter().sum::<u64>(),
        counts[0],
        refused.join(", ")
    );
    different
}

/// All trees of few nodes, and random ones. Gives how many differ.
pub fn compare(ours: &mut Ours, smaller: usize, trees: u64, seed: u64) -> u64 {
    let mut chart = Chart::new(Rules::new(None));
    let mut different = 0;
    for set in sets(smaller) {
        let (mut tally, start) = (Tally::default(), Instant::now());
        set.each(|tree| tally.tree(&mut chart, ours, tree));
        tally.print(&set.words(), set.context, start);
        different += tally.different;
    }
    for structs in Structs::ALL {
        for (most_tokens, trees) in [(40, trees), (200, trees / 40)] {
            let (mut tally, start) = (Tally::default(), Instant::now());
            let random = Random { structs, seed, trees, most_tokens };
            random.each(|tree| tally.tree(&mut chart, ours, tree));
            tally.print(&random.words(), structs.context(), start);
            different += tally.different;
        }
    }
    different + replies(ours, 2 * trees, seed) + damaged_files(ours, seed)
}

/// Tree files on the standard input of the program `tokens` that are cut off, too
/// long, or have bytes behind them.
fn damaged_files(ours: &mut Ours, seed: u64) -> u64 {
    if ours.is_lent() || !ours.is_slow() {
        return 0;
    }
    let mut different = 0;
    for index in 0..300 {
        let dice = &mut Dice::new(seed + 3, index);
        let tree = makers::drawn(dice, seed, 60);
        let mut file = table::write(&tree);
        let header = 1 + numbers(&[tree.count]).len();
        let reply = match dice.below(3) {
            0 => {
                let left = dice.below(file.len());
                file.truncate(left);
                if left < header {
                    2
                } else {
                    5
                }
            }
            1 => {
                file.push(dice.below(256) as u8);
                5
            }
            _ => {
                file.resize(MOST_FILE_BYTES + 1, 0);
                1
            }
        };
        if ours.write_file(&file) != Some(Err(reply)) {
            different += 1;
            println!("  our reply is not {reply} for a file of {} bytes", file.len());
        }
    }
    println!("damaged files: 300, different {different}");
    different
}
