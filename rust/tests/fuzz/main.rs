//! Loading, deciding, writing and reading on random bytes, damaged files, damaged
//! tables and token lists in every context, with every buffer length around each boundary.
//!
//! Each reply and each lent cell is compared with what the library's definitions say,
//! as they are stated a second time by `model` (tree files, refusals, tokens, and all
//! readings of a token list, found by cutting it) and here (buffers). A row's contents
//! are stated by the recorded rows, see `tests/recorded.rs`.
//!
//! TEZHUKOR_FUZZ says how many of each are made; 2,000 if it says nothing.

mod edits;
mod open;

use model::callee::{apart, Apart};
use model::chart::Chart;
use model::codes::{self, Token, CLOSE, COMMA, EQUALS, MINUS, NAME, OPEN};
use model::commas;
use model::generate::{self, Dice, Family};
use model::lent::{self, Lent};
use model::rules::Rules;
use model::sizes::*;
use model::table::{self, NodeTable, DETAIL, FIRST, FORM, SECOND, SYMBOL};
use model::verdict::{self, Verdict};
use model::written::{self, last_links, without_parens, Written};
use model::{accept, contexts, forms};
use tezhukor::boundary::questions::decide_by_order;
use tezhukor::{boundary, Refusal, Tree};

/// How many of each are made.
fn times() -> u64 {
    std::env::var("TEZHUKOR_FUZZ").ok().and_then(|times| times.parse().ok()).unwrap_or(2_000)
}

/// How many have which reply.
#[derive(Default)]
struct Tally([u64; LAST_REFUSAL as usize + 1]);

impl Tally {
    fn count(&mut self, refusal: u16) {
        self.0[usize::from(refusal)] += 1;
    }

    fn print(&self, name: &str) {
        let all: u64 = self.0.iter().sum();
        let replies: Vec<String> = (0..self.0.len())
            .filter(|&reply| self.0[reply] > 0)
            .map(|reply| format!("{reply}: {}", self.0[reply]))
            .collect();
        println!("{name}: {all}, by reply {}; different 0", replies.join(", "));
    }
}

/// What loading a file into a table of so many cells must give.
fn loaded(file: &[u8], lent: usize) -> Result<NodeTable, u16> {
    lent::loaded(accept::file(file), file, lent)
}

/// Loads a file with so many cells lent.
fn load(file: &[u8], length: usize, tally: &mut Tally) -> Option<NodeTable> {
    let mut lent = Lent::new(length);
    let reply = boundary::load(file, lent.lend(length));
    let meant = loaded(file, length);
    let (number, cells) = lent::told_loaded(&meant);
    assert_eq!(reply, number, "{file:?}");
    holds(lent, cells);
    tally.count(meant.as_ref().err().copied().unwrap_or(0));
    meant.ok()
}

/// Checks that a buffer holds an answer, and else what it was lent with.
fn holds(mut lent: Lent, answer: &[u16]) {
    assert_eq!(lent.take(answer.len()).as_deref(), Some(answer));
}

/// Decides a table with so many cells lent for rows.
fn decide(table: &NodeTable, lent: usize, tally: &mut Tally) {
    let mut lent_rows = Lent::new(lent);
    let NodeTable { context, count, cells } = table;
    let reply = boundary::decide(*context, *count, cells, lent_rows.lend(lent));
    let nodes = usize::from(*count);
    let meant = match accept::refusal(table) {
        0 if lent < ROW_CELLS * nodes => 12,
        refusal => refusal,
    };
    assert_eq!(reply, meant, "{table:?}");
    tally.count(reply);
    if reply != 0 {
        holds(lent_rows, &[]);
        return;
    }
    let rows: Vec<u16> = tree(table).rows().iter().flat_map(|row| row.cells()).collect();
    holds(lent_rows, &rows);
}

/// Decides in both callee orders, as [`decide`] does: the same replies and buffers, the same
/// rows in ours by any number but 0, and other rows in the crate's only where it is said.
#[test]
fn callee_orders() {
    let (mut tally, mut changed) = (Tally::default(), 0);
    for index in 0..times() {
        let dice = &mut Dice::new(81, index);
        let mut table = Family::Callees.tree(82, index);
        if dice.percent(20) {
            table = damaged_table(&table, dice);
        }
        let nodes = usize::from(table.count).min(5_000);
        let length = around(ROW_CELLS * nodes, dice);
        decide(&table, length, &mut tally);
        let by_order = |order: u16| {
            let mut rows = Lent::new(length);
            let NodeTable { context, count, cells } = &table;
            let reply = decide_by_order(order, *context, *count, cells, rows.lend(length));
            let done = if reply == 0 { nodes } else { 0 };
            (reply, rows.take(ROW_CELLS * done).expect("no other cell is written to"))
        };
        let (reply, ours) = by_order(dice.pick(&[1, 2, 65_535]));
        let (same, crates) = by_order(0);
        assert_eq!(same, reply);
        let own = match reply {
            0 => tree(&table).rows().iter().flat_map(|row| row.cells()).collect(),
            _ => Vec::new(),
        };
        assert_eq!(ours, own);
        let rows = || crates.chunks_exact(ROW_CELLS).zip(ours.chunks_exact(ROW_CELLS));
        let has_pair: Vec<bool> = rows().map(|(theirs, _)| theirs[0] & 1 == 1).collect();
        let apart = if reply == 0 { apart(&table, &has_pair) } else { Vec::new() };
        for (apart, (theirs, own)) in apart.into_iter().zip(rows()) {
            assert!(apart != Apart::Same || theirs == own, "{table:?}");
            assert!(apart != Apart::Callee || (theirs[0], own[0]) == (0, 1), "{table:?}");
            changed += u64::from(theirs != own);
        }
    }
    assert!(changed > times() / 100, "{changed} rows differ");
    tally.print("decided in both callee orders");
}

/// The tree of an accepted table, which may have cells past its last node.
fn tree(table: &NodeTable) -> Tree {
    let cells = table.cells[..NODE_CELLS * usize::from(table.count)].to_vec();
    Tree::load(&table::write(&NodeTable { cells, ..*table })).expect("accepted")
}

/// Which nodes of an accepted table have an outer pair, by the library's rows.
fn pairs(table: &NodeTable) -> Vec<bool> {
    tree(table).rows().iter().map(|row| row.has_outer_pair()).collect()
}

/// Writes a table with so many cells lent; gives the tokens.
fn write(table: &NodeTable, length: usize, tally: &mut Tally) -> Option<Vec<Token>> {
    let mut lent = Lent::new(length);
    let NodeTable { context, count, cells } = table;
    let reply = boundary::write(*context, *count, cells, lent.lend(length));
    let meant = written::reply(table, length, pairs);
    let number = match &meant {
        Ok(written) => PAIRS_UNIT * written.pairs.len() as u64 + written.tokens.len() as u64,
        Err(refusal) => WRITTEN_UNIT * u64::from(*refusal),
    };
    assert_eq!(reply, number, "{table:?}");
    tally.count(meant.as_ref().err().copied().unwrap_or(0));
    let tokens = meant.ok().map(|written| written.tokens);
    holds(lent, &codes::cells(tokens.as_deref().unwrap_or(&[])));
    tokens
}

/// What is read: the context and the cells of tokens.
struct Asked<'a> {
    context: u16,
    cells: &'a [u16],
}

/// Reads a token list in a context with so many cells lent, when it must give that.
fn read(context: u16, tokens: &[Token], length: usize, verdict: &Verdict, tally: &mut Tally) {
    let cells = &codes::cells(tokens);
    read_cells(Asked { context, cells }, length, verdict, tally);
}

/// The same for any cells.
fn read_cells(asked: Asked, length: usize, verdict: &Verdict, tally: &mut Tally) {
    let Asked { context, cells: tokens } = asked;
    let mut lent = Lent::new(length);
    let reply = boundary::read(context, tokens, lent.lend(length));
    let first = verdict::before_tokens(context, length).map(Err);
    let meant = first.as_ref().unwrap_or(verdict);
    let number = match meant {
        Ok(cells) => (cells.len() / NODE_CELLS) as u32,
        Err(refusal) => REFUSAL_UNIT * u32::from(*refusal),
    };
    assert_eq!(reply, number, "{context} {tokens:?}");
    holds(lent, meant.as_deref().unwrap_or(&[]));
    tally.count(meant.as_ref().err().copied().unwrap_or(0));
}

/// One of the lengths around a boundary.
fn around(boundary: usize, dice: &mut Dice) -> usize {
    let near = [0, boundary.saturating_sub(1), boundary, boundary + 1, boundary + 7];
    match dice.below(8) {
        0..=4 => dice.pick(&near),
        5 => dice.below(boundary + 1),
        _ => boundary,
    }
}

/// Lengths for a table of any count.
const NEAR_MOST_CELLS: [usize; 8] =
    [0, NODE_CELLS, MOST_CELLS - 1, MOST_CELLS, MOST_CELLS, MOST_CELLS, MOST_CELLS, MOST_CELLS + 1];

/// The length for a table that a file of that many bytes may need.
fn table_length(file: &[u8], dice: &mut Dice) -> usize {
    match loaded(file, MOST_CELLS) {
        Ok(table) => around(table.cells.len(), dice),
        Err(_) => dice.pick(&NEAR_MOST_CELLS),
    }
}

#[test]
fn random_bytes() {
    let mut tally = Tally::default();
    for index in 0..times() {
        let dice = &mut Dice::new(1, index);
        let length = dice.pick(&[0, 1, 2, 3, 8, 14, 20, 62, 300]);
        let most = dice.pick(&[4, 60, 130, 256]);
        let mut file: Vec<u8> = (0..length).map(|_| dice.below(most) as u8).collect();
        if length > 2 && dice.percent(60) {
            file[0] = dice.below(4) as u8;
            file[1] = ((length - 2) / NODE_CELLS) as u8 & 0x7F;
        }
        let length = table_length(&file, dice);
        load(&file, length, &mut tally);
        let whole = Tree::load(&file).map(|tree| tree.cells().to_vec());
        let meant = loaded(&file, MOST_CELLS).map(|table| table.cells);
        assert_eq!(whole.map_err(Refusal::number), meant);
    }
    for length in [MOST_FILE_BYTES - 1, MOST_FILE_BYTES, MOST_FILE_BYTES + 1, 70_000] {
        load(&vec![0; length], MOST_CELLS, &mut tally);
        load(&vec![0x81; length], MOST_CELLS, &mut tally);
    }
    tally.print("random bytes loaded");
}

/// Changes some bytes of a file, takes some out or puts some in.
fn damaged(mut file: Vec<u8>, dice: &mut Dice) -> Vec<u8> {
    for _ in 0..dice.pick(&[0, 1, 1, 2, 5]) {
        let at = dice.below(file.len() + 1);
        let byte = dice.pick(&[0, 1, 2, 26, 56, 127, 128, 255, dice_byte(at)]);
        match (dice.below(5), file.get(at).copied()) {
            (0, _) => file.truncate(at),
            (1, _) => file.insert(at, byte),
            (2, Some(_)) => drop(file.remove(at)),
            (3, Some(old)) => file[at] = old.wrapping_add(1),
            (_, Some(_)) => file[at] = byte,
            (_, None) => file.push(byte),
        }
    }
    file
}

fn dice_byte(at: usize) -> u8 {
    (at * 37 % 58) as u8
}

#[test]
fn damaged_files() {
    let [mut loads, mut decides, mut writes] = [(); 3].map(|()| Tally::default());
    for index in 0..times() {
        let dice = &mut Dice::new(2, index);
        let tree = Family::Mixed.tree(3, index);
        let file = damaged(table::write(&tree), dice);
        let length = table_length(&file, dice);
        load(&file, length, &mut loads);
        if let Ok(table) = loaded(&file, MOST_CELLS) {
            ask(&table, dice, &mut decides, &mut writes);
        }
    }
    loads.print("damaged files loaded");
    decides.print("their tables decided");
    writes.print("their tables written");
}

/// Decides and writes a table with buffers around their boundaries.
fn ask(table: &NodeTable, dice: &mut Dice, decides: &mut Tally, writes: &mut Tally) {
    let count = usize::from(table.count);
    decide(table, around(ROW_CELLS * count, dice), decides);
    let length = around(TOKEN_CELLS_PER_NODE * count, dice);
    write(table, length, writes);
}

/// The details that refusals 9 and 10 speak of.
fn refused_detail(table: &mut NodeTable, dice: &mut Dice) {
    let at = NODE_CELLS * dice.below(table.cells.len() / NODE_CELLS);
    for node in table.cells[at..].chunks_mut(NODE_CELLS) {
        match node[FORM] {
            forms::TYPE_PATH if node[FIRST..=SECOND] == [0, 0] => return node[DETAIL] = 0,
            forms::TYPE_IMPL_TRAIT | forms::TYPE_TRAIT_OBJECT => return node[DETAIL] = 0,
            forms::CLOSURE => return node[DETAIL] = 1,
            _ => {}
        }
    }
}

/// Changes some cells of a table, its context, its count or its length.
fn damaged_table(tree: &NodeTable, dice: &mut Dice) -> NodeTable {
    const MOST: u16 = MOST_NODES as u16;
    let mut table = tree.clone();
    match dice.below(6) {
        0 => refused_detail(&mut table, dice),
        1 => table = tree.in_parens(dice.between(100, MOST_LEVELS + 1) as u16),
        _ => {}
    }
    for _ in 0..dice.pick(&[0, 1, 1, 2]) {
        let at = dice.below(table.cells.len().max(1));
        let number = dice.pick(&[0, 1, 2, 3, tree.count, tree.count + 1, 56, 57, 65_535]);
        match dice.below(8) {
            0 => table.context = dice.pick(&[0, 1, 2, 3, 4, 65_535]),
            1 => table.count = dice.pick(&[0, 1, tree.count + 1, MOST, MOST + 1, 65_535]),
            2 => table.cells.truncate(at),
            3 => table.cells.push(number),
            _ if at < table.cells.len() => table.cells[at] = number,
            _ => {}
        }
    }
    table
}

#[test]
fn damaged_tables() {
    let [mut decides, mut writes] = [(); 2].map(|()| Tally::default());
    for index in 0..times() {
        let dice = &mut Dice::new(4, index);
        let table = damaged_table(&Family::Mixed.tree(5, index), dice);
        let nodes = usize::from(table.count).min(5_000);
        decide(&table, around(ROW_CELLS * nodes, dice), &mut decides);
        write(&table, around(TOKEN_CELLS_PER_NODE * nodes, dice), &mut writes);
    }
    decides.print("damaged tables decided");
    writes.print("damaged tables written");
}

/// Symbols where nodes may have one change no row; a symbol at any node is allowed or 6.
#[test]
fn symbols() {
    let [mut decides, mut loads] = [(); 2].map(|()| Tally::default());
    for index in 0..times() {
        let dice = &mut Dice::new(31, index);
        let mut shape = Family::Mixed.tree(32, index);
        table::erase(&mut shape.cells);
        let mut named = shape.clone();
        generate::symbols(&mut named, dice);
        assert_eq!(tree(&named).rows(), tree(&shape).rows());
        let nodes = usize::from(shape.count);
        let node = NODE_CELLS * dice.below(nodes);
        named.cells[node + SYMBOL] = dice.pick(&[1, 127, 128, 16_383, 16_384, MOST_SYMBOL]);
        decide(&named, ROW_CELLS * nodes, &mut decides);
        load(&table::write(&named), NODE_CELLS * nodes, &mut loads);
    }
    decides.print("tables with a symbol at any node decided");
    loads.print("their files loaded");
}

#[test]
fn every_length() {
    let [mut loads, mut decides, mut writes] = [(); 3].map(|()| Tally::default());
    for index in 0..(times() / 50).clamp(4, 400) {
        let tree = Family::Mixed.tree(6, index);
        let count = usize::from(tree.count);
        if count > 20 {
            continue;
        }
        let file = table::write(&tree);
        for length in 0..=TOKEN_CELLS_PER_NODE * count + 8 {
            load(&file, length, &mut loads);
            decide(&tree, length, &mut decides);
            write(&tree, length, &mut writes);
        }
        for length in 0..=file.len() {
            load(&file[..length], MOST_CELLS, &mut loads);
        }
    }
    loads.print("loaded with every length");
    decides.print("decided with every length");
    writes.print("written with every length");
}

#[test]
fn written_and_read() {
    let [mut writes, mut reads] = [(); 2].map(|()| Tally::default());
    for index in 0..times() {
        let tree = plain(7, index);
        let tokens = write(&tree, TOKEN_CELLS_PER_NODE * usize::from(tree.count), &mut writes)
            .expect("plain");
        let bare = without_parens(&tree);
        read(tree.context, &tokens, MOST_CELLS, &Ok(bare), &mut reads);
    }
    writes.print("plain trees written");
    reads.print("their tokens read");
}

/// A plain tree, every second one with Structs, half of these in a condition.
fn plain(seed: u64, index: u64) -> NodeTable {
    [Family::Plain, Family::Structs][index as usize % 2].tree(seed, index / 2)
}

/// One of the contexts in which lists are read, seldom another number.
fn any_context(dice: &mut Dice) -> u16 {
    match dice.percent(6) {
        true => dice.pick(&[contexts::STATEMENT, contexts::MATCH_ARM, LAST_CONTEXT + 1, 65_535]),
        false => dice.pick(&contexts::PLAIN),
    }
}

/// A token list: written for a plain tree and edited, or any codes; with symbols, now and
/// then at a token that has none.
fn list(dice: &mut Dice, index: u64) -> Vec<Token> {
    let mut tokens = shape(dice, index);
    generate::token_symbols(&mut tokens, dice);
    if !tokens.is_empty() && dice.percent(10) {
        let at = dice.below(tokens.len());
        tokens[at].symbol = dice.pick(&generate::SYMBOLS);
    }
    tokens
}

fn shape(dice: &mut Dice, index: u64) -> Vec<Token> {
    if dice.percent(20) {
        return (0..dice.below(9))
            .map(|_| Token::from(dice.below(usize::from(codes::CODES) + 1) as u16))
            .collect();
    }
    let tree = plain(8, index);
    let mut tokens = match tree.count {
        0..=12 => Written::new(&tree, &pairs(&tree)).tokens,
        _ => codes::tokens(&[32, 31, 32, 13, 32, 17, 13, 32]),
    };
    for _ in 0..dice.below(4) {
        let at = dice.below(tokens.len() + 1);
        let code = dice
            .pick(&[1, 2, 5, 8, 10, 13, 17, 28, 31, 32, 33, 34, 35, 36, 39, 44, 45, 46, 46, 47]);
        match dice.below(3) {
            0 => tokens.insert(at, code.into()),
            1 if at < tokens.len() => drop(tokens.remove(at)),
            _ if at < tokens.len() => tokens[at].code = code,
            _ => tokens.push(code.into()),
        }
    }
    tokens
}

#[test]
fn token_lists() {
    let mut tally = Tally::default();
    let mut chart = Chart::new(Rules::new(None));
    for index in 0..times() {
        let dice = &mut Dice::new(9, index);
        let tokens = list(dice, index);
        let context = any_context(dice);
        let verdict = verdict::of(&mut chart, context, &tokens).expect("at most one reading");
        let length = dice.pick(&[MOST_CELLS, MOST_CELLS, MOST_CELLS + 1, MOST_CELLS - 1, 0]);
        read(context, &tokens, length, &verdict, &mut tally);
        let file = tezhukor::tree_file(context, &tokens).map_err(Refusal::number);
        let tree = file.map(|file| Tree::load(&file).expect("a tree"));
        assert!(tree.as_ref().is_ok_and(|tree| tree.context() == context) || tree.is_err());
        assert_eq!(tree.map(|tree| tree.cells().to_vec()), verdict);
    }
    tally.print("token lists read");
}

/// Any cells: those of a list, one cut off at the end, one more, or one changed.
#[test]
fn token_cells() {
    let mut tally = Tally::default();
    let mut chart = Chart::new(Rules::new(None));
    for index in 0..times() {
        let dice = &mut Dice::new(33, index);
        let mut cells = codes::cells(&list(dice, index));
        let any = dice.pick(&[0, 1, 32, 33, 44, 45, 46, 47, 127, 128, 16_383, 16_384, 65_535]);
        let context = any_context(dice);
        match dice.below(4) {
            0 => cells.truncate(dice.below(cells.len() + 1)),
            1 => cells.insert(dice.below(cells.len() + 1), any),
            2 if !cells.is_empty() => {
                let at = dice.below(cells.len());
                cells[at] = any;
            }
            _ => {}
        }
        let verdict = verdict::of_cells(&mut chart, context, &cells).expect("at most one reading");
        let length = dice.pick(&[MOST_CELLS, MOST_CELLS, MOST_CELLS + 1, MOST_CELLS - 1]);
        read_cells(Asked { context, cells: &cells }, length, &verdict, &mut tally);
    }
    // Every symbol at every code, alone and as one operand of a sum.
    for code in 0..=codes::CODES {
        for symbol in generate::SYMBOLS {
            let token = Token::new(code, symbol);
            for list in [vec![token], vec![token, MINUS.into(), Token::new(NAME, 9)]] {
                for context in 0..=LAST_CONTEXT + 1 {
                    let verdict = verdict::of(&mut chart, context, &list);
                    read(context, &list, MOST_CELLS, &verdict.expect("one reading"), &mut tally);
                    // Half a token more.
                    let odd = &[&codes::cells(&list)[..], &[NAME]].concat();
                    read_cells(Asked { context, cells: odd }, MOST_CELLS, &Err(14), &mut tally);
                }
            }
        }
    }
    tally.print("cells read");
}

/// Plain trees with commas after the last items of some lists, which are read alike; and
/// token lists with commas put in.
#[test]
fn commas_put_in() {
    let [mut trees, mut lists] = [(); 2].map(|()| Tally::default());
    let mut chart = Chart::new(Rules::new(None));
    for index in 0..times() {
        let dice = &mut Dice::new(10, index);
        let tree = plain(11, index);
        let chosen: Vec<u16> = last_links(&tree).into_iter().filter(|_| dice.percent(70)).collect();
        let tokens = Written::with_commas(&tree, &pairs(&tree), &chosen).tokens;
        let bare = without_parens(&tree);
        let verdict = if tokens.len() > MOST_TOKENS { Err(14) } else { Ok(bare) };
        read(tree.context, &tokens, MOST_CELLS, &verdict, &mut trees);
        let mut tokens = list(dice, index);
        commas::put_in(dice, &mut tokens);
        let context = any_context(dice);
        let verdict = verdict::of(&mut chart, context, &tokens).expect("at most one reading");
        read(context, &tokens, MOST_CELLS, &verdict, &mut lists);
    }
    trees.print("plain trees with commas read");
    lists.print("token lists with commas put in read");
}

/// The longest lists and those one token longer, whose reading is known.
#[test]
fn longest_lists() {
    let mut tally = Tally::default();
    for length in [2_047, 2_048, 2_049, MOST_TOKENS - 1, MOST_TOKENS, MOST_TOKENS + 1] {
        let long = |verdict| if length > MOST_TOKENS { Err(14) } else { verdict };
        let name = vec![forms::PATH, 0, 0, 0, 0, 0];
        let even = length - (length + 1) % 2;
        let grouped = [vec![OPEN; even / 2], vec![NAME], vec![CLOSE; even / 2]].concat();
        let grouped_verdict = if even > MOST_TOKENS { Err(14) } else { Ok(name) };
        let repeated = |codes: &[u16]| codes.iter().copied().cycle().take(length).collect();
        // A name behind prefixes, called with a name and so many commas behind it.
        let called = |length: usize, commas| {
            let call = [vec![NAME, OPEN, NAME], vec![COMMA; commas], vec![CLOSE]].concat();
            [vec![MINUS; length - call.len()], call].concat()
        };
        // A Struct in as many parentheses as the name.
        let structs = grouped.iter().map(|&code| if code == NAME { codes::STRUCT } else { code });
        let structs_verdict = grouped_verdict.clone().map(|_| vec![forms::STRUCT, 0, 0, 0, 0, 0]);
        let lists: [(Vec<u16>, Verdict); 10] = [
            (structs.collect(), structs_verdict),
            (grouped, grouped_verdict),
            (vec![OPEN; length], long(Err(15))),
            (repeated(&[MINUS]), long(Err(15))),
            ([vec![MINUS; length - 1], vec![NAME]].concat(), long(Err(16))),
            (repeated(&[NAME, OPEN]), long(Err(15))),
            (repeated(&[NAME, EQUALS]), long(Err(if length % 2 == 0 { 15 } else { 16 }))),
            (vec![LAST_CODE + 1; length], Err(14)),
            (called(length, 1), long(Err(16))),
            (called(length, 2), long(Err(15))),
        ];
        for (list, verdict) in &lists {
            let list = codes::tokens(list);
            let odd = &[&codes::cells(&list)[..], &[NAME]].concat();
            for context in contexts::PLAIN {
                for cells in [MOST_CELLS - 1, MOST_CELLS, MOST_CELLS + 1] {
                    read(context, &list, cells, verdict, &mut tally);
                }
                read_cells(Asked { context, cells: odd }, MOST_CELLS, &Err(14), &mut tally);
            }
            read(contexts::STATEMENT, &list, MOST_CELLS - 1, verdict, &mut tally);
        }
    }
    tally.print("longest lists read");
}
