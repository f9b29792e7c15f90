//! New inputs, and inputs made of others.

use crate::ask::EXPORTS;
use crate::damage;
use crate::input::{numbers, Input, EXPORT, GROWTH, HEAD, LENGTHS, NODE, ORDER, SPLIT, TIMES};
use model::codes::{self, Token};
use model::edit::Asked;
use model::generate::{self, Dice, Family};
use model::sizes::{MOST_LEVELS, MOST_NODES, MOST_TOKENS};
use model::table::{self, NodeTable};
use model::written::Written;
use model::{accept, columns, commas, contexts};
use tezhukor::Tree;

/// The most bytes of a part.
const MOST_BYTES: usize = 60_000;

/// A tree of any family, mostly a small one.
fn tree(dice: &mut Dice) -> NodeTable {
    const SMALL: u16 = 24;
    let mut tree = any_tree(dice);
    for _ in 0..8 {
        if tree.count <= SMALL || dice.percent(2) {
            break;
        }
        tree = any_tree(dice);
    }
    tree
}

fn any_tree(dice: &mut Dice) -> NodeTable {
    let family = dice.pick(&Family::ALL);
    family.tree(dice.below(1 << 16) as u64, dice.below(1 << 20) as u64)
}

/// A plain tree in a context in which it is written.
fn plain(dice: &mut Dice) -> NodeTable {
    const SMALL: u16 = 16;
    let family = dice.pick(&[Family::Plain, Family::Structs]);
    let mut draw = || family.tree(dice.below(1 << 16) as u64, dice.below(1 << 20) as u64);
    let mut tree = draw();
    for _ in 0..8 {
        if tree.count <= SMALL {
            break;
        }
        tree = draw();
    }
    tree
}

/// The file of a tree, now and then damaged.
fn file(dice: &mut Dice) -> Vec<u8> {
    let tree = tree(dice);
    match dice.percent(40) {
        true => damage::damage(&tree, dice).file,
        false => table::write(&tree),
    }
}

/// The same by columns.
fn columns(dice: &mut Dice) -> Vec<u8> {
    let held = columns::rearranged(&tree(dice));
    match dice.percent(40) {
        true => damage::in_file(&held, dice).file,
        false => table::write(&held),
    }
}

/// A token list with its context: that of a plain tree, with commas and symbols put in.
fn tokens(dice: &mut Dice) -> Vec<u8> {
    let tree = plain(dice);
    let rows = Tree::load(&table::write(&tree)).expect("accepted").rows().to_vec();
    let pairs: Vec<bool> = rows.iter().map(|row| row.has_outer_pair()).collect();
    let mut tokens = Written::new(&tree, &pairs).tokens;
    if dice.percent(20) {
        commas::put_in(dice, &mut tokens);
    }
    for _ in 0..dice.pick(&[0, 0, 1, 1, 2, 4]) {
        let at = dice.below(tokens.len() + 1);
        let code = dice.below(usize::from(codes::CODES) + 1) as u16;
        match dice.below(3) {
            0 => tokens.insert(at, code.into()),
            1 if at < tokens.len() => drop(tokens.remove(at)),
            _ if at < tokens.len() => tokens[at].code = code,
            _ => {}
        }
    }
    if dice.percent(60) {
        generate::token_symbols(&mut tokens, dice);
    }
    tokens_input(if dice.percent(95) { tree.context } else { context(dice) }, &tokens)
}

/// A token list as a part of an input.
pub fn tokens_input(context: u16, tokens: &[Token]) -> Vec<u8> {
    table::numbers([context].iter().chain(&codes::cells(tokens)))
}

fn context(dice: &mut Dice) -> u16 {
    dice.pick(&[0, 1, 2, contexts::CONDITION, 4, 65_535])
}

/// Any number, mostly a small one.
fn number(dice: &mut Dice) -> u16 {
    match dice.below(10) {
        0 => dice.below(65_536) as u16,
        1 => dice.pick(&generate::SYMBOLS),
        _ => dice.below(32) as u16,
    }
}

/// The numbers of a question about a node: what is asked, two operators, flags, a cell or an
/// offset, two more of either, and a precedence; now and then any.
fn question(dice: &mut Dice) -> [u16; 8] {
    let below = [dice.pick(&[6, 20]), 20, 20, 1_024, 6, 3, 3, 18];
    below.map(|most| if dice.percent(6) { number(dice) } else { dice.below(most) as u16 })
}

/// How often something grows: mostly seldom, now and then as often as bounds are met.
fn times(dice: &mut Dice) -> u16 {
    let bound = match dice.below(40) {
        0 => MOST_NODES / 2,
        1 => MOST_NODES,
        2 => MOST_TOKENS,
        3 => MOST_TOKENS / 2,
        4 => 65_530,
        5..=20 => MOST_LEVELS,
        _ => 6,
    };
    (bound + dice.below(12)).saturating_sub(dice.pick(&[0, 6, 12])).min(65_535) as u16
}

/// An input for an export that owes nothing to another.
pub fn fresh(export: usize, dice: &mut Dice) -> Input {
    let mut input = Input { head: [0; HEAD], first: Vec::new(), second: Vec::new() };
    input.head[EXPORT] = export as u8;
    input.head[ORDER] = dice.pick(&[0, 0, 0, 1, 2, 255]);
    for buffer in 0..4 {
        if dice.percent(25) {
            input.head[LENGTHS + buffer] = dice.below(256) as u8;
        }
    }
    if dice.percent(1) {
        input.head[GROWTH] = dice.pick(&[1, 2, 3, 4, 0x20, 0x30, 0x22, 0x32]);
        set(&mut input, TIMES, times(dice));
    }
    [input.first, input.second] = match EXPORTS[export] {
        "from_columns" | "load_columns" => [columns(dice), Vec::new()],
        "read" => [tokens(dice), Vec::new()],
        "compare" => alike(dice),
        "edit" | "preview" => [file(dice), file(dice)],
        "decide_open" => open(dice),
        "write" if dice.percent(70) => [table::write(&plain(dice)), Vec::new()],
        "answer" | "fixup_answer" | "scan_right" | "context" | "handed" => {
            [file(dice), table::numbers(&question(dice))]
        }
        _ => [file(dice), Vec::new()],
    };
    let count = numbers(&input.first).get(1).copied().unwrap_or(0);
    let any = dice.below(usize::from(count.min(5_000)) + 2) as u16;
    let node = if EXPORTS[export] == "binding" { number(dice) } else { any };
    set(&mut input, NODE, node);
    fit(input)
}

/// Two files, mostly of trees that are alike.
fn alike(dice: &mut Dice) -> [Vec<u8>; 2] {
    let tree = tree(dice);
    let own = table::write(&tree);
    let other = match dice.below(3) {
        0 => own.clone(),
        1 => damage::damage(&tree, dice).file,
        _ => file(dice),
    };
    [own, other]
}

/// A tree and entries that leave some of its operators open.
fn open(dice: &mut Dice) -> [Vec<u8>; 2] {
    let tree = tree(dice);
    let asked = generate::open::asked(tree, dice);
    let numbers: Vec<u16> = [asked.entered].into_iter().chain(asked.entries).collect();
    [table::write(&asked.table), table::numbers(&numbers)]
}

/// Sets a number of the head.
pub fn set(input: &mut Input, at: usize, number: u16) {
    input.head[at..at + 2].copy_from_slice(&number.to_le_bytes());
}

/// With parts that are not too long, and where the first ends.
fn fit(mut input: Input) -> Input {
    input.first.truncate(MOST_BYTES);
    input.second.truncate(MOST_BYTES);
    let split = input.first.len() as u16;
    set(&mut input, SPLIT, split);
    input
}

/// Any bytes for an export.
pub fn noise(export: usize, dice: &mut Dice) -> Input {
    let most = dice.pick(&[4, 60, 130, 256]);
    let length = dice.pick(&[0, 2, 8, 14, 20, 40, 120]);
    let mut input = Input::of(&vec![0; HEAD]);
    input.head[EXPORT] = export as u8;
    for at in [ORDER, NODE, LENGTHS, LENGTHS + 1] {
        input.head[at] = dice.below(most) as u8;
    }
    input.first = (0..length).map(|_| dice.below(most) as u8).collect();
    input.second = (0..length / 2).map(|_| dice.below(most) as u8).collect();
    fit(input)
}

/// An input made of one, with some of another.
pub fn mutated(of: &Input, other: &Input, dice: &mut Dice) -> Input {
    let mut input = of.clone();
    for _ in 0..dice.pick(&[1, 1, 1, 2, 2, 4]) {
        match dice.below(16) {
            0..=2 => in_head(&mut input, dice),
            3..=5 => in_bytes(part(&mut input, dice), dice),
            6..=10 => in_numbers(part(&mut input, dice), dice),
            11 => moved(part(&mut input, dice), dice),
            12..=13 => {
                let from = if dice.percent(70) { &other.first } else { &other.second };
                with_some(part(&mut input, dice), from, dice);
            }
            _ => grafted(&mut input, other, dice),
        }
    }
    fit(input)
}

/// Mostly the first.
fn part<'a>(input: &'a mut Input, dice: &mut Dice) -> &'a mut Vec<u8> {
    match input.second.is_empty() || dice.percent(60) {
        true => &mut input.first,
        false => &mut input.second,
    }
}

fn in_head(input: &mut Input, dice: &mut Dice) {
    match dice.below(8) {
        0 => input.head[ORDER] = dice.pick(&[0, 1, 255]),
        1 | 2 => set(input, NODE, number(dice)),
        3 => {
            input.head[GROWTH] = dice.pick(&[0, 1, 2, 3, 4, 0x20, 0x30, 0x22]);
            set(input, TIMES, times(dice));
        }
        4 => input.head[GROWTH] = 0,
        _ => {
            let rule = if dice.percent(60) { 0 } else { any_byte(dice) };
            input.head[LENGTHS + dice.below(4)] = rule;
        }
    }
}

fn any_byte(dice: &mut Dice) -> u8 {
    dice.below(256) as u8
}

fn in_bytes(bytes: &mut Vec<u8>, dice: &mut Dice) {
    let at = dice.below(bytes.len() + 1);
    let any = any_byte(dice);
    let byte = dice.pick(&[0, 1, 0x7F, 0x80, 0xFF, any, any]);
    match (dice.below(5), bytes.get(at).copied()) {
        (0, _) => bytes.truncate(at),
        (1, _) => bytes.insert(at, byte),
        (2, Some(_)) => drop(bytes.remove(at)),
        (3, Some(old)) => bytes[at] = old ^ 1 << dice.below(8),
        (_, Some(_)) => bytes[at] = byte,
        (_, None) => bytes.push(byte),
    }
}

/// Other numbers in a part, one more or one less.
fn in_numbers(bytes: &mut Vec<u8>, dice: &mut Dice) {
    let mut all = numbers(bytes);
    let at = dice.below(all.len() + 1);
    let any = match dice.below(4) {
        0 => all.get(1).copied().unwrap_or(0).wrapping_add(dice.pick(&[0, 1, 65_535])),
        1 => dice.below(58) as u16,
        _ => number(dice),
    };
    match (dice.below(8), all.get(at).copied()) {
        (0, _) => all.insert(at, any),
        (1, Some(_)) => drop(all.remove(at)),
        (2 | 3, Some(old)) => all[at] = old.wrapping_add(dice.pick(&[1, 65_535])),
        (_, Some(_)) => all[at] = any,
        (_, None) => all.push(any),
    }
    *bytes = table::numbers(&all);
}

/// Some bytes stand again behind themselves, or go.
fn moved(bytes: &mut Vec<u8>, dice: &mut Dice) {
    let from = dice.below(bytes.len() + 1);
    let to = (from + dice.below(24)).min(bytes.len());
    match dice.percent(50) {
        true => drop(bytes.drain(from..to)),
        false => {
            let some = bytes[from..to].to_vec();
            bytes.splice(to..to, some);
        }
    }
}

/// Bytes of another stand somewhere.
fn with_some(bytes: &mut Vec<u8>, other: &[u8], dice: &mut Dice) {
    let from = dice.below(other.len() + 1);
    let to = (from + dice.below(64)).min(other.len());
    let at = dice.below(bytes.len() + 1);
    let gone = (at + if dice.percent(50) { to - from } else { 0 }).min(bytes.len());
    bytes.splice(at..gone, other[from..to].iter().copied());
}

/// The tree of the first part with another's at one of its nodes, where both are trees.
fn grafted(input: &mut Input, other: &Input, dice: &mut Dice) {
    let by_columns = |input: &Input| {
        let export = crate::ask::export(input.head[EXPORT]);
        matches!(EXPORTS[export], "from_columns" | "load_columns")
    };
    let read = |input: &Input| match by_columns(input) {
        true => columns::read(&input.first),
        false => accept::file(&input.first),
    };
    let (Ok(sheet), Ok(second)) = (read(input), read(other)) else { return };
    let node = dice.between(1, sheet.count.into()) as u16;
    if let Ok(result) = (Asked { sheet, order: 1, rows: Vec::new(), node, second }).result() {
        input.first = match by_columns(input) {
            true => columns::write(&result),
            false => table::write(&result),
        };
    }
}
