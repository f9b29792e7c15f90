//! Puts each question to prettyplease's own files and to Tezhukor, for every
//! node of many accepted trees, and counts where the answers differ.

mod contexts;
mod decided;
mod digest;
mod edits;
mod in_context;
mod nests;
mod open;
mod orders;
mod record;
mod rows;
mod spines;

use decided::{Decided, Way, CRATES};
use in_context::{any, Cases, QUESTIONS};
use model::forms::Class;
use model::generate::{Dice, Family, SmallTrees};
use model::{accept, table, CalleeOrder, NodeTable};
use oracle::direct::{context_of_root, each_expression, Context};
use oracle::orders::Orders;
use oracle::{answers, BuiltTree, NodeAnswers, Row};
use std::process::ExitCode;
use tezhukor::boundary::questions::{self, Place, Question};

/// What was asked about a set of trees, and how often the answers differed.
#[derive(Default)]
struct Tally {
    trees: u64,
    asked: [u64; Question::ALL.len()],
    asked_in_context: [u64; QUESTIONS.len()],
    /// Rows of expressions, put together here, in each callee order.
    rows: u64,
    /// Rows of expressions by tezhukor_decide, and as many by tezhukor_decide_by_order.
    decided: u64,
    /// The rows of both callee orders beside each other.
    orders: Orders,
    different: u64,
}

impl Tally {
    /// Asks both sides about every node of a tree.
    fn compare(&mut self, tree: &NodeTable, roots: Roots, cases: &mut Cases, dice: &mut Dice) {
        assert_eq!(accept::refusal(tree), 0, "not an accepted tree: {tree:?}");
        self.trees += 1;
        self.compare_alone(tree);
        self.compare_in_context(tree, cases, dice);
        let headers = match roots {
            Roots::Own => vec![tree.context],
            Roots::All => vec![0, 1, 2, 3],
        };
        let mut contexts: Vec<Context> = headers.iter().copied().map(context_of_root).collect();
        contexts.push(any(self.trees % 2 == 0, dice));
        let built = BuiltTree::new(tree.count, &tree.cells);
        let [crates, ours] = CalleeOrder::ALL.map(|order| built.rows(order, &contexts));
        for (&context, rows) in contexts.iter().zip(crates.iter().zip(&ours)) {
            self.compare_rows(CalleeOrder::Crate, tree, context, rows.0);
            self.compare_rows(CalleeOrder::Ours, tree, context, rows.1);
            self.rows += expressions(tree);
            self.orders.compare(tree, rows.0, rows.1);
        }
        for (&header, rows) in headers.iter().zip(crates.iter().zip(&ours)) {
            self.compare_decided(CRATES, tree, header, rows.0, dice.below(8));
            self.compare_decided(Way::Decide, tree, header, rows.1, dice.below(8));
            self.decided += expressions(tree);
        }
    }

    /// The rows below a root in a context, put together here.
    fn compare_rows(
        &mut self,
        order: CalleeOrder,
        tree: &NodeTable,
        context: Context,
        theirs: &[Row],
    ) {
        for ((node, ours), theirs) in (1..).zip(rows::rows(order, context, tree)).zip(theirs) {
            if ours != *theirs {
                self.different += 1;
                println!("{ours:?}, not {theirs:?}, root {context:?}, node {node} of {tree:?}");
            }
        }
    }

    /// The rows by the library in a header's context, and what else it does to buffers with
    /// some spare cells.
    fn compare_decided(
        &mut self,
        way: Way,
        tree: &NodeTable,
        header: u16,
        theirs: &[Row],
        spare: usize,
    ) {
        for difference in Decided::new(way, header, tree, spare).differences(tree, theirs) {
            self.different += 1;
            println!("{way:?}: {difference}, context {header} for {tree:?}");
        }
    }

    /// The questions that need no context.
    fn compare_alone(&mut self, tree: &NodeTable) {
        let theirs = answers(tree.context, tree.count, &tree.cells);
        for (node, answers) in (1..).zip(&theirs.nodes) {
            let place = Place { table: &tree.cells, count: tree.count, node };
            for (question, theirs) in theirs_of(answers) {
                let ours = questions::answer(question, place);
                self.asked[question as usize] += 1;
                if ours != theirs {
                    self.different += 1;
                    println!("{}: {ours}, not {theirs}, node {node} of {tree:?}", question.name());
                }
            }
        }
    }

    /// The questions about an expression in a context.
    fn compare_in_context(&mut self, tree: &NodeTable, cases: &mut Cases, dice: &mut Dice) {
        each_expression(&tree.cells, tree.count, |node, subject| {
            let place = Place { table: &tree.cells, count: tree.count, node };
            for case in cases.draw(dice) {
                for (question, asked) in QUESTIONS.iter().zip(&mut self.asked_in_context) {
                    let ours = (question.ours)(place, &case);
                    let theirs = (question.theirs)(subject, &case);
                    *asked += 1;
                    if ours != theirs {
                        self.different += 1;
                        let name = question.name;
                        println!("{name}: {ours}, not {theirs}, {case:?}, node {node} of {tree:?}");
                    }
                }
            }
        });
    }

    /// Tells what came of all, and gives how often something differed.
    fn print(&self, name: &str) -> u64 {
        println!("{name}: trees {}, different {}", self.trees, self.different);
        for question in Question::ALL {
            println!("  {} {}", question.name(), self.asked[question as usize]);
        }
        for (question, asked) in QUESTIONS.iter().zip(self.asked_in_context) {
            println!("  {} {asked}", question.name);
        }
        println!("  rows {}, in each callee order", self.rows);
        println!("  rows by tezhukor_decide {0}, by tezhukor_decide_by_order {0}", self.decided);
        self.orders.print();
        self.different + self.orders.different
    }
}

/// How many nodes of a tree are expressions.
fn expressions(tree: &NodeTable) -> u64 {
    let is_expression = |&node: &u16| table::class(&tree.cells, node) == Class::Expression;
    (1..=tree.count).filter(is_expression).count() as u64
}

/// What the crate answers for a node, by question.
fn theirs_of(answers: &NodeAnswers) -> Vec<(Question, u16)> {
    match answers {
        NodeAnswers::Expression(answers) => vec![
            (Question::PrecedenceOf, answers.precedence_of),
            (Question::RequiresSemi, answers.requires_semi_to_be_stmt.into()),
            (Question::RequiresComma, answers.requires_comma_to_be_match_arm.into()),
            (Question::LeadingLabel, answers.expr_leading_label.into()),
            (Question::TrailingBrace, answers.expr_trailing_brace.into()),
        ],
        NodeAnswers::Type(answers) => vec![
            (Question::TrailingPath, answers.trailing_unparameterized_path.into()),
            (Question::TypeTrailingBrace, answers.type_trailing_brace.into()),
        ],
        NodeAnswers::Link => vec![],
    }
}

/// The contexts of a root in which rows are compared. One of any content is
/// always among them.
#[derive(Copy, Clone)]
enum Roots {
    /// The tree's own.
    Own,
    /// The four that document 01 has.
    All,
}

/// Trees of a set, by their numbers.
fn compare(
    name: &str,
    seed: u64,
    roots: Roots,
    trees: impl Iterator<Item = NodeTable>,
    cases: &mut Cases,
) -> u64 {
    let mut tally = Tally::default();
    for (index, tree) in (0..).zip(trees) {
        tally.compare(&tree, roots, cases, &mut Dice::new(seed, index));
    }
    tally.print(name)
}

const USAGE: &str = "usage:
  compare [SEED]           all questions and rows, on random and on small trees
  compare short            the same on each 23rd of these trees, and some calls, edits and
                           drafts, for the gate
  compare edits EDITS [SEED]
                           so many edits of open sheets and as many previews, in runs too,
                           with every refusal
  compare open CHOICES [SEED]
                           trees with operators that are not chosen yet, over so many choices
  compare orders CALLS [SEED]
                           rows in both callee orders, on trees with so many calls
  compare spines [FORMS]   rows of right spines of one to five forms, or of so many
  compare record FORMS     the same of one, two or three forms, and writes crates/spines/data
  compare nests            rows of nests of 128 levels, with the crate's scans kept";

fn main() -> ExitCode {
    oracle::command::run(USAGE, |words| match *words {
        [] => Some(contexts::compare() + compare_trees(1, 1)),
        ["short"] => {
            let rows = compare_trees(1, 23) + orders::compare(100_000, 1);
            Some(rows + edits::compare(10_000, 1) + open::compare(100_000, 1))
        }
        ["edits", ref words @ ..] => with_seed(words, edits::compare),
        ["open", ref words @ ..] => with_seed(words, open::compare),
        ["orders", ref words @ ..] => with_seed(words, orders::compare),
        ["spines"] => Some((1..=spines::LONGEST).map(|forms| spines::compare(forms).0).sum()),
        ["spines", forms] => number(forms, spines::LONGEST).map(|forms| spines::compare(forms).0),
        ["record", forms] => number(forms, 3).map(record::record),
        ["nests"] => Some(nests::compare()),
        [seed] => seed.parse().ok().map(|seed| contexts::compare() + compare_trees(seed, 1)),
        _ => None,
    })
}

/// How many there shall be, and a seed, which is 1 where none is given.
fn with_seed(words: &[&str], compare: fn(u64, u64) -> u64) -> Option<u64> {
    let (many, seed) = match words {
        [many] => (many, &"1"),
        [many, seed] => (many, seed),
        _ => return None,
    };
    Some(compare(many.parse().ok()?, seed.parse().ok()?))
}

/// A number from 1 to the largest.
fn number(text: &str, largest: u32) -> Option<u32> {
    text.parse().ok().filter(|number| (1..=largest).contains(number))
}

/// All questions and rows, on each so many-th of the trees of a seed and of all small
/// ones.
fn compare_trees(seed: u64, step: usize) -> u64 {
    let mut different = 0;
    let cases = &mut Cases::new();
    for (family, trees) in [
        (Family::Random, 200_000),
        (Family::Scans, 100_000),
        (Family::Spines, 100_000),
        (Family::Plain, 100_000),
    ] {
        let name = format!("{}, seed {seed}", family.name());
        let tables = (0..trees).step_by(step).map(|at| family.tree(seed, at));
        different += compare(&name, seed, Roots::Own, tables, cases);
    }
    for (name, trees) in [
        ("every tree of up to 3 nodes", SmallTrees::every_label(3)),
        ("representative trees of up to 4 nodes", SmallTrees::representative(4)),
        ("narrow trees of up to 6 nodes", SmallTrees::narrow(6)),
    ] {
        // Each tree in the context that its number gives.
        let tables = (0..trees.len()).step_by(step).map(|at| trees.tree((at % 4) as u16, at));
        different += compare(name, seed, Roots::All, tables, cases);
    }
    println!("contexts met {} of {}", cases.met(), 1 << 18);
    println!("scan_right's precedences and offsets met {} of 192", cases.arguments_met());
    different
}
