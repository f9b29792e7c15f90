//! Every way of putting pairs round the operands of a plain tree without Parens, any number
//! round each: which of those with no more pairs than are written read back as that tree.
//!
//! In context 0 none with fewer does (document 02, Paper 14). In context 3 some do, and are
//! counted. The readings are the chart's, the pairs that are written those of the crate's own
//! rows, or ours where we are asked.

use crate::ours::Ours;
use crate::trees::{self, Random, Structs};
use crate::written::written;
use model::chart::Chart;
use model::codes::text;
use model::contexts::NONE;
use model::forms::{Class, PAREN};
use model::rules::Rules;
use model::sizes::TOKEN_CELLS_PER_NODE;
use model::table::{self, NodeTable};
use model::written::{without_parens, Written};
use std::time::Instant;

/// What came of a set of trees.
#[derive(Default)]
struct Tally {
    trees: u64,
    /// Trees with a pair at all.
    with_pairs: u64,
    pairs: u64,
    most_pairs: usize,
    /// Ways that were written and read.
    ways: u64,
    /// Other ways with as many pairs that read back as the tree, and the trees that have one.
    as_many: u64,
    trees_as_many: u64,
    /// Trees for which fewer pairs do, and the most that can be spared.
    trees_fewer: u64,
    most_fewer: usize,
    different: u64,
    /// The shortest list of another way that reads as the tree, beside what is written: in
    /// context 0 one with as many pairs, in context 3 one with fewer.
    shortest: Option<(usize, String)>,
}

impl Tally {
    fn tree(&mut self, chart: &mut Chart, ours: &mut Ours, tree: &NodeTable) {
        let numbers = 1..=tree.count;
        if numbers.clone().any(|number| table::node(&tree.cells, number).form == PAREN) {
            return;
        }
        let written = written(tree);
        let lent = TOKEN_CELLS_PER_NODE * usize::from(tree.count);
        self.different +=
            u64::from(!ours.write(tree, lent).is_none_or(|ours| ours.is(Ok(&written))));
        let most = written.pairs.len();
        self.trees += 1;
        self.with_pairs += u64::from(most > 0);
        self.pairs += most as u64;
        self.most_pairs = self.most_pairs.max(most);
        let is_operand =
            |&number: &u16| number > 1 && table::class(&tree.cells, number) == Class::Expression;
        let operands: Vec<usize> =
            numbers.filter(is_operand).map(|number| usize::from(number) - 1).collect();
        let meant = without_parens(tree);
        let mut pairs = vec![0; tree.count.into()];
        let mut least = most;
        let before = self.as_many;
        for total in 0..=most {
            each_way(&operands, total, &mut pairs, &mut |pairs| {
                let way = Written::with_pairs(tree, pairs);
                if way == written {
                    return;
                }
                self.ways += 1;
                chart.read(&way.tokens);
                if !chart.readings(tree.context).contains(&meant) {
                    return;
                }
                least = least.min(total);
                self.as_many += u64::from(total == most);
                self.different += u64::from(total < most && tree.context == NONE);
                if total < most || tree.context == NONE {
                    self.show(&way, &written);
                }
            });
        }
        self.trees_as_many += u64::from(self.as_many > before);
        self.trees_fewer += u64::from(least < most);
        self.most_fewer = self.most_fewer.max(most - least);
    }

    fn show(&mut self, way: &Written, written: &Written) {
        let length = way.tokens.len();
        if self.shortest.as_ref().is_none_or(|shortest| length < shortest.0) {
            let both = [way, written].map(|written| text(&written.tokens));
            self.shortest = Some((length, format!("{} for {}", both[0], both[1])));
        }
    }

    fn print(&self, name: &str, context: u16, start: Instant) {
        println!(
            "{name}, context {context}: trees {}, with pairs {}, pairs {}, at most {} a tree; other \
             ways {}, read with as many {}, of {} trees; fewer do for {} trees, at most {} fewer; \
             different {}, {} s",
            self.trees,
            self.with_pairs,
            self.pairs,
            self.most_pairs,
            self.ways,
            self.as_many,
            self.trees_as_many,
            self.trees_fewer,
            self.most_fewer,
            self.different,
            start.elapsed().as_secs(),
        );
        if let Some((_, shortest)) = &self.shortest {
            println!("  {shortest}");
        }
    }
}

/// All ways to put so many pairs round some operands.
fn each_way(
    operands: &[usize],
    total: usize,
    pairs: &mut [usize],
    visit: &mut dyn FnMut(&[usize]),
) {
    let Some((&last, others)) = operands.split_last() else {
        if total == 0 {
            visit(pairs);
        }
        return;
    };
    for own in 0..=total {
        pairs[last] = own;
        each_way(others, total - own, pairs, visit);
    }
    pairs[last] = 0;
}

/// All trees of few nodes, and random ones. Gives how many are against the theorem, or
/// written otherwise by us.
pub fn compare(ours: &mut Ours, smaller: usize, trees: u64, seed: u64) -> u64 {
    let mut chart = Chart::new(Rules::new(None));
    let mut different = 0;
    for set in trees::sets(smaller) {
        let (mut tally, start) = (Tally::default(), Instant::now());
        set.each(|tree| tally.tree(&mut chart, ours, tree));
        tally.print(&set.words(), set.context, start);
        different += tally.different;
    }
    for structs in Structs::ALL {
        let (mut tally, start) = (Tally::default(), Instant::now());
        let random = Random { structs, seed, trees, most_tokens: 24 };
        random.each(|tree| tally.tree(&mut chart, ours, tree));
        tally.print(&random.words(), structs.context(), start);
        different += tally.different;
    }
    different
}
