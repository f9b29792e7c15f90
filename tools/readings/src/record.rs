//! Token lists with their verdicts and plain trees with their tokens, for the
//! program `recorded`.
//!
//! Records stand one behind the other, all numbers with the low byte first, and
//! their headers are those of `crates/recorded/data/rows`:
//!
//! - u16: how many cells are lent, for the table or for the tokens
//! - u32: the length in bytes of what is read or written
//! - u16: the reply, 0 or the refusal
//! - u16: in `readings` the context in which the list is read, also when refused; else 0
//! - u16: the count, 0 when refused
//!
//! Then, in `readings`, the cells of the tokens, code and symbol, two bytes each, and when
//! not refused the table, six cells of u16 for each of so many nodes as the count says. In
//! `tokens`, the bytes of a tree file, and when not refused so many tokens as the count
//! says, each two cells of u16.

use crate::commas::{self, Charts};
use crate::lists;
use crate::makers;
use crate::plain::PlainTrees;
use crate::trees::{Random, Structs};
use crate::written;
use model::chart::Chart;
use model::codes::*;
use model::commas::before_closing;
use model::contexts::{self, CONDITION, MATCH_ARM, NONE, STATEMENT};
use model::forms;
use model::forms::operator::{ADD, EQ};
use model::generate::{Dice, Family, SYMBOLS};
use model::rules::Rules;
use model::sizes::{LAST_CONTEXT, MOST_CELLS, MOST_NODES, MOST_TOKENS, NODE_CELLS};
use model::sizes::{TOKEN_CELLS, TOKEN_CELLS_PER_NODE};
use model::table::{self, NodeTable, FORM};
use model::verdict::{self, Verdict};
use std::path::PathBuf;

const SEED: u64 = 21;

/// The cells of the buffers of the program `recorded`.
const LENT: u16 = 65_535;

/// Records, and how many have which reply.
#[derive(Default)]
struct Records {
    bytes: Vec<u8>,
    replies: [usize; 17],
}

/// What is asked: a context, so many cells that are lent, and bytes.
struct Asked<'a> {
    context: u16,
    lent: u16,
    read: &'a [u8],
}

impl Records {
    fn add(&mut self, Asked { context, lent, read }: Asked, reply: &Verdict, each: usize) {
        let (number, cells) = match reply {
            Ok(cells) => (0, &cells[..]),
            Err(refusal) => (*refusal, &[][..]),
        };
        self.replies[usize::from(number)] += 1;
        let (length, count) = (read.len(), cells.len() / each);
        for number in [lent, length as u16, (length >> 16) as u16, number, context, count as u16] {
            self.bytes.extend(number.to_le_bytes());
        }
        self.bytes.extend(read);
        self.bytes.extend(cells.iter().flat_map(|cell| cell.to_le_bytes()));
    }

    /// Writes the file, and prints what `recorded` must print for it.
    fn write(self, name: &str) {
        let folder = PathBuf::from(env!("CARGO_MANIFEST_DIR")).join("../../crates/recorded/data");
        let size = self.bytes.len();
        std::fs::write(folder.join(name), self.bytes).expect("crates/recorded/data is there");
        println!("{name}\naccepted {}", self.replies[0]);
        let refused = self.replies.iter().enumerate().skip(1).filter(|reply| *reply.1 > 0);
        for (reply, records) in refused {
            println!("refused {reply}: {records}");
        }
        println!("files {}, different 0", self.replies.iter().sum::<usize>());
        eprintln!("{size} bytes");
    }
}

/// Lists in context 0, with as many cells as the program `recorded` has.
const IN_NONE: In = In { context: NONE, lent: LENT };

/// A list that is read in a context, with a table of so many cells lent.
#[derive(Copy, Clone)]
struct In {
    context: u16,
    lent: u16,
}

impl In {
    /// With as many cells as the program `recorded` has.
    fn context(context: u16) -> In {
        In { context, lent: LENT }
    }

    fn add(self, records: &mut Records, tokens: &[Token], verdict: &Verdict) {
        self.add_cells(records, &cells(tokens), verdict);
    }

    /// The same for any cells.
    fn add_cells(self, records: &mut Records, cells: &[u16], verdict: &Verdict) {
        let In { context, lent } = self;
        let bytes: Vec<u8> = cells.iter().flat_map(|cell| cell.to_le_bytes()).collect();
        let first = verdict::before_tokens(context, lent.into()).map(Err);
        let reply = first.as_ref().unwrap_or(verdict);
        records.add(Asked { context, lent, read: &bytes }, reply, NODE_CELLS);
    }

    /// Reads any cells by the chart, and records what it gives.
    fn read(self, records: &mut Records, chart: &mut Chart, cells: &[u16]) {
        let verdict = verdict::of_cells(chart, self.context, cells).expect("at most one reading");
        self.add_cells(records, cells, &verdict);
    }
}

/// The contexts in which a list is recorded: in a condition only if it holds a Struct, since
/// otherwise the verdict is the same.
fn contexts_of(tokens: &[Token]) -> &'static [u16] {
    if lists::tells(CONDITION, tokens) {
        &contexts::PLAIN
    } else {
        &[NONE]
    }
}

/// Records a tree file with so many cells lent for tokens. Left out are tables that
/// no file holds.
fn add_tree(records: &mut Records, lent: u16, tree: &NodeTable) {
    if !written::fits_a_file(tree) {
        return;
    }
    let reply = written::reply(tree, lent.into()).map(|written| cells(&written.tokens));
    let asked = Asked { context: 0, lent, read: &table::write(tree) };
    records.add(asked, &reply, TOKEN_CELLS);
}

/// Commas before what closes something that follow a last item, and that do not: the lists
/// of the papers.
const COMMA_LISTS: [&[u16]; 16] = [
    &[NAME, OPEN, NAME, COMMA, CLOSE],
    &[NAME, OPEN, NAME, COMMA, NAME, COMMA, CLOSE],
    &[NAME, DOT, NAME, OPEN, NAME, COMMA, CLOSE],
    &[NAME, AS, NAME, LESS, NAME, COMMA, GREATER],
    &[NAME, AS, NAME, LESS, NAME, COMMA, UNDERSCORE, COMMA, GREATER, LESS, NAME],
    &[NAME, OPEN, NAME, OPEN, LITERAL, COMMA, CLOSE, COMMA, CLOSE, OPEN, NAME, COMMA, CLOSE],
    &[NAME, OPEN, COMMA, CLOSE],
    &[NAME, OPEN, NAME, COMMA, COMMA, CLOSE],
    &[OPEN, NAME, COMMA, CLOSE],
    &[NAME, OPEN_BRACKET, NAME, COMMA, CLOSE_BRACKET],
    &[NAME, AS, NAME, LESS, COMMA, GREATER],
    &[NAME, DOT, NAME, OPEN, COMMA, CLOSE],
    &[NAME, AS, NAME, LESS, NAME, COMMA, COMMA, GREATER],
    &[NAME, OPEN, OPEN, NAME, COMMA, CLOSE, COMMA, CLOSE],
    &[NAME, OPEN, NAME, CLOSE, COMMA],
    &[NAME, OPEN, NAME, COMMA, GREATER, NAME, CLOSE],
];

/// Structs outside every parenthesis, bracket and argument list, and inside one: the lists of
/// Paper 5.
const STRUCT_LISTS: [&[u16]; 28] = [
    &[STRUCT],
    &[OPEN, STRUCT, CLOSE],
    &[OPEN, OPEN, STRUCT, CLOSE, CLOSE],
    &[NAME, EQ, STRUCT],
    &[NAME, EQ, OPEN, STRUCT, CLOSE],
    &[OPEN, NAME, EQ, STRUCT, CLOSE],
    &[STRUCT, EQ, NAME],
    &[STRUCT, EQ, OPEN, STRUCT, CLOSE],
    &[OPEN, STRUCT, CLOSE, EQ, STRUCT],
    &[OPEN, STRUCT, ADD, STRUCT, CLOSE],
    &[NAME, OPEN, STRUCT, CLOSE],
    &[NAME, OPEN, NAME, COMMA, MINUS, STRUCT, COMMA, CLOSE],
    &[NAME, DOT, NAME, OPEN, STRUCT, CLOSE],
    &[NAME, OPEN_BRACKET, STRUCT, CLOSE_BRACKET],
    &[NAME, OPEN_BRACKET, NAME, CLOSE_BRACKET, EQ, STRUCT],
    &[NAME, OPEN, STRUCT, CLOSE, ADD, STRUCT],
    &[STRUCT, OPEN, CLOSE],
    &[STRUCT, DOT, NAME],
    &[STRUCT, DOT, NAME, OPEN, CLOSE],
    &[OPEN, STRUCT, DOT, NAME, CLOSE, OPEN, CLOSE],
    &[OPEN, STRUCT, CLOSE, DOT, NAME, OPEN, CLOSE],
    &[STRUCT, OPEN_BRACKET, NAME, CLOSE_BRACKET],
    &[STRUCT, QUESTION],
    &[MINUS, STRUCT],
    &[NAME, EQUALS, STRUCT],
    &[STRUCT, AS, NAME],
    &[NAME, AS, STRUCT],
    &[NAME, DOT, STRUCT],
];

/// Records lists with such commas: those above; of all short ones those that have a
/// reading, and each fifth that has one without its commas alone; plain trees with commas
/// after last items; random ones of both kinds; and ones at the bounds of 14 and 16.
fn add_commas(records: &mut Records) {
    let mut charts = Charts::new(None);
    let [mut read, mut nearly] = [0, 0];
    let mut add = |charts: &Charts| {
        let tokens = charts.chart.tokens();
        for &context in contexts_of(tokens) {
            let verdict = verdict::verdict(&charts.chart, context).expect("at most one reading");
            let counter = if charts.is_read(context) { &mut read } else { &mut nearly };
            *counter += 1;
            In::context(context).add(records, tokens, &verdict);
        }
    };
    for list in COMMA_LISTS {
        let places = (0..).zip(list);
        charts.read(&places.map(|(at, &code)| lists::at_place(code, at)).collect::<Vec<_>>());
        add(&charts);
    }
    charts.read(&[]);
    let mut passed = 0;
    for (_, codes, most) in lists::sets(1).into_iter().skip(1) {
        let most = most + commas::LONGER;
        commas::each_list(&mut charts, &codes, most, false, &mut |charts| {
            passed += usize::from(charts.is_nearly_read(NONE));
            if charts.is_read(NONE) || charts.is_nearly_read(NONE) && passed % 5 == 0 {
                add(charts);
            }
        });
    }
    for (structs, trees) in [(Structs::Without, 40), (Structs::In(CONDITION), 20)] {
        Random { structs, seed: SEED, trees, most_tokens: 40 }.each(|tree| {
            commas::each_choice(tree, 2, |tokens| {
                charts.read(&tokens);
                add(&charts);
            });
        });
    }
    for index in 0..1_000 {
        charts.read(&makers::with_commas(&mut Dice::new(SEED, index), SEED, 40));
        let has_commas = !before_closing(charts.chart.tokens()).is_empty();
        if has_commas && (charts.is_read(NONE) || charts.is_nearly_read(NONE)) {
            add(&charts);
        }
    }
    eprintln!("with commas: read {read}, without a reading {nearly}");
    for (tokens, verdict) in makers::constructed_with_commas(SEED) {
        if tokens.len() <= 700 {
            IN_NONE.add(records, &tokens, &verdict);
        }
    }
    for (nodes, count) in [(MOST_NODES, 1), (MOST_NODES, 2), (MOST_NODES + 1, 1)] {
        let list = makers::with_last_comma(makers::type_arguments(nodes), count);
        let list = makers::named(list, &mut Dice::new(SEED, 1));
        IN_NONE.add(records, &list.0, &list.1);
    }
    // As many tokens as there may be, and one more, which is the comma.
    let [most, more] = [2, 1].map(|less| makers::MOST_PAIRS - less);
    for (tokens, verdict) in
        [makers::tried(makers::called_with_grouped(most, 1)), makers::called_with_grouped(more, 1)]
    {
        assert_eq!(tokens.len(), MOST_TOKENS + usize::from(verdict == Err(14)));
        let list = makers::named((tokens, verdict), &mut Dice::new(SEED, 2));
        IN_NONE.add(records, &list.0, &list.1);
    }
}

pub fn record() {
    read_lists().write("readings");
    written_trees().write("tokens");
}

/// All lists of up to 2 tokens; of those of up to 5 some that have a reading, and
/// some that lack one and begin like one; random lists; each code with each symbol;
/// constructed lists; other contexts; and lists with commas before what closes something.
/// Lists that hold a Struct are recorded in both contexts.
fn read_lists() -> Records {
    let mut records = Records::default();
    let mut chart = Chart::new(Rules::new(None));
    let one =
        |chart: &Chart, context| verdict::verdict(chart, context).expect("at most one reading");
    let every: Vec<u16> = (0..CODES).collect();
    lists::each_list(&mut chart, &every, 2, &mut |chart| {
        for &context in contexts_of(chart.tokens()) {
            In::context(context).add(&mut records, chart.tokens(), &one(chart, context));
        }
    });
    for list in STRUCT_LISTS {
        for context in contexts::PLAIN {
            In::context(context).read(&mut records, &mut chart, &cells(&tokens(list)));
        }
    }
    chart.read(&[]);
    let (_, kinds, _) = lists::sets(0).swap_remove(1);
    // In context 0 the read and the unread ones; in a condition the read and the unread ones
    // that hold a Struct, and of the latter those that only the condition keeps unread.
    let [mut read, mut unread, mut held, mut barred] = [0; 4];
    lists::each_list(&mut chart, &kinds, 5, &mut |chart| {
        if chart.tokens().len() <= 2 {
            return;
        }
        let verdict = one(chart, NONE);
        let (counter, step) = if verdict.is_ok() { (&mut read, 5) } else { (&mut unread, 10_007) };
        *counter += 1;
        if *counter % step == 0 {
            IN_NONE.add(&mut records, chart.tokens(), &verdict);
        }
        if verdict.is_ok() && lists::tells(CONDITION, chart.tokens()) {
            let verdict = one(chart, CONDITION);
            let (counter, step) = if verdict.is_ok() { (&mut held, 1) } else { (&mut barred, 5) };
            *counter += 1;
            if *counter % step == 0 {
                In::context(CONDITION).add(&mut records, chart.tokens(), &verdict);
            }
        }
    });
    eprintln!("up to 5 tokens: in a condition read with a Struct {held}, barred {barred}");
    for index in 0..2_000 {
        let dice = &mut Dice::new(SEED, index);
        let mut tokens = makers::random(dice, SEED, 40);
        makers::misplace_symbol(dice, &mut tokens);
        for &context in contexts_of(&tokens) {
            In::context(context).read(&mut records, &mut chart, &cells(&tokens));
        }
    }
    // Each symbol at each code, alone and behind a prefix; and half a token more.
    for code in 0..=CODES {
        for symbol in SYMBOLS {
            for list in [&[code, symbol][..], &[NOT, 0, code, symbol], &[code, symbol, NAME]] {
                for &context in contexts_of(&[code.into()]) {
                    In::context(context).read(&mut records, &mut chart, list);
                }
            }
        }
    }
    for context in contexts::PLAIN {
        for (tokens, verdict) in makers::constructed(context, SEED) {
            if tokens.len() <= 700 && contexts_of(&tokens).contains(&context) {
                In::context(context).add(&mut records, &tokens, &verdict);
            }
        }
    }
    for nodes in [MOST_NODES, MOST_NODES + 1] {
        let tree = makers::drawn(&mut Dice::new(SEED, 0), SEED, 400);
        let called = makers::called(&tree, nodes).expect("a smaller tree");
        for list in [called, makers::type_arguments(nodes)] {
            let (tokens, verdict) = makers::named(list, &mut Dice::new(SEED, 3));
            IN_NONE.add(&mut records, &tokens, &verdict);
        }
    }
    // As many tokens as there may be, and one more.
    for (pairs, inner, context) in [
        (makers::MOST_PAIRS, &[MINUS, NAME][..], NONE),
        (makers::MOST_PAIRS + 1, &[NAME], NONE),
        (makers::MOST_PAIRS, &[STRUCT], CONDITION),
    ] {
        let (tokens, verdict) = makers::grouped(pairs, inner);
        assert_eq!(tokens.len() > MOST_TOKENS, verdict == Err(14));
        let (tokens, verdict) = makers::named((tokens, verdict), &mut Dice::new(SEED, 4));
        In::context(context).add(&mut records, &tokens, &verdict);
        // Half a token more.
        let odd = [&cells(&tokens)[..], &[NAME]].concat();
        In::context(context).add_cells(&mut records, &odd, &Err(14));
    }
    // Of the context, the table and the tokens the first that is refused is told.
    for context in [NONE, STATEMENT, MATCH_ARM, CONDITION, LAST_CONTEXT + 1, 65_535] {
        for lent in [0, NODE_CELLS, MOST_CELLS - 1, MOST_CELLS].map(|cells| cells as u16) {
            for list in [&[][..], &[NAME], &[NAME, ADD, NAME], &[ADD], &[STRUCT], &[CODES]] {
                In { context, lent }.read(&mut records, &mut chart, &cells(&tokens(list)));
            }
            // An odd number of cells meets 12 first too.
            In { context, lent }.add_cells(&mut records, &[NAME], &Err(14));
        }
    }
    add_commas(&mut records);
    records
}

/// Whether a tree has a Struct.
fn has_struct(tree: &NodeTable) -> bool {
    tree.cells.chunks(NODE_CELLS).any(|node| node[FORM] == forms::STRUCT)
}

/// All trees of few nodes, those with Structs in both contexts; random ones; such as are not
/// plain, or not accepted; and buffers that are just long enough or one cell too short.
fn written_trees() -> Records {
    let mut records = Records::default();
    for (labels, most_nodes) in
        [(PlainTrees::every(3), 3), (PlainTrees::kinds(4), 4), (PlainTrees::narrow(5), 5)]
    {
        for nodes in 1..=most_nodes {
            for index in 0..labels.with(nodes) {
                add_tree(&mut records, LENT, &labels.tree(nodes, index));
            }
        }
    }
    for (labels, most_nodes) in
        [(PlainTrees::every_and_struct(3), 3), (PlainTrees::narrow_and_struct(4), 4)]
    {
        for nodes in 1..=most_nodes {
            let trees = (0..labels.with(nodes)).map(|index| labels.tree(nodes, index));
            for tree in trees.filter(has_struct) {
                for context in contexts::PLAIN {
                    add_tree(&mut records, LENT, &NodeTable { context, ..tree.clone() });
                }
            }
        }
    }
    for (structs, trees) in
        [(Structs::Without, 300), (Structs::In(NONE), 20), (Structs::In(CONDITION), 100)]
    {
        let random = Random { structs, seed: SEED, trees, most_tokens: 40 };
        random.each(|tree| add_tree(&mut records, LENT, tree));
    }
    for index in 0..1_000 {
        let dice = &mut Dice::new(SEED, index);
        let tree = makers::table(dice, SEED);
        if tree.count < 300 {
            add_tree(&mut records, LENT, &tree);
        }
    }
    for index in 0..60 {
        let tree = makers::drawn(&mut Dice::new(SEED + 1, index), SEED + 1, 60);
        add_tree(&mut records, TOKEN_CELLS_PER_NODE as u16 * tree.count, &tree);
        add_tree(&mut records, TOKEN_CELLS_PER_NODE as u16 * tree.count - 1, &tree);
    }
    // The shorter buffer is met before the tree that is not plain, or not in a context in
    // which trees are written.
    for index in 0..20 {
        let tree = Family::Scans.tree(SEED, index);
        if tree.count < 100 {
            add_tree(&mut records, TOKEN_CELLS_PER_NODE as u16 * tree.count - 1, &tree);
        }
    }
    for context in [STATEMENT, MATCH_ARM] {
        for index in 0..10 {
            let drawn = makers::drawn(&mut Dice::new(SEED + 2, index), SEED + 2, 60);
            let tree = NodeTable { context, ..drawn };
            add_tree(&mut records, LENT, &tree);
            add_tree(&mut records, TOKEN_CELLS_PER_NODE as u16 * tree.count - 1, &tree);
        }
    }
    let most = (0..).map(|index| Family::Plain.tree(SEED, index));
    for tree in most.filter(|tree| usize::from(tree.count) == MOST_NODES).take(2) {
        add_tree(&mut records, LENT, &tree);
    }
    records
}
