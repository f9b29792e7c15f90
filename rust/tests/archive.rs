//! One file for one tree, and the order on files, on random trees under many
//! numberings, with every buffer length around the boundary.
//!
//! What must come out is stated by `model`: its numbering from the root on, its files,
//! its refusals, and the order of two tables.
//!
//! TEZHUKOR_FUZZ says how many of each are made; 2,000 if it says nothing.

use model::accept;
use model::generate::{Dice, Draft, Family, Order};
use model::lent::{told, Lent};
use model::sizes::*;
use model::table::{self, NodeTable, ATTRIBUTES, DETAIL, FORM, SECOND, SYMBOL};
use std::cmp::Ordering;
use tezhukor::{boundary, Refusal, Tree};

/// How many of each are made.
fn times() -> u64 {
    std::env::var("TEZHUKOR_FUZZ").ok().and_then(|times| times.parse().ok()).unwrap_or(2_000)
}

/// So many numberings of each tree.
const NUMBERINGS: usize = 12;

/// What saving a table must give.
fn meant(table: &NodeTable) -> Result<Vec<u8>, u16> {
    match accept::refusal(table) {
        0 => Ok(table::write(&table.numbered())),
        refusal => Err(refusal),
    }
}

/// Saves a table with so many bytes lent, and looks at the reply and at every byte.
fn save(table: &NodeTable, length: usize, meant: &Result<Vec<u8>, u16>) {
    let mut file = Lent::new(length);
    let reply = boundary::save(table.context, table.count, &table.cells, file.lend(length));
    let (number, stored) = told(meant, length);
    assert_eq!(reply, number, "{table:?}");
    assert_eq!(file.take(stored.len()).as_deref(), Some(stored), "{table:?}");
}

/// The lengths within 8 of a boundary.
fn near(boundary: usize) -> std::ops::RangeInclusive<usize> {
    boundary.saturating_sub(8)..=boundary + 8
}

/// The table with its nodes numbered anew.
fn numbered(draft: &Draft, table: &NodeTable, dice: &mut Dice) -> NodeTable {
    draft.number(table.context, Order::any(dice), dice)
}

/// Mixed trees, each with its file and with dice of its own.
fn each_tree(seed: u64, mut visit: impl FnMut(NodeTable, Vec<u8>, &mut Dice)) {
    for index in 0..times() {
        let tree = Family::Mixed.tree(seed + 1, index);
        let file = meant(&tree).expect("accepted");
        visit(tree, file, &mut Dice::new(seed, index));
    }
}

/// The same file for a tree under any numbering, which loads back as it, and is saved
/// again as it is.
#[test]
fn numberings() {
    let mut others = 0;
    each_tree(21, |tree, file, dice| {
        let draft = Draft::of(&tree);
        for _ in 0..NUMBERINGS {
            let table = numbered(&draft, &tree, dice);
            save(&table, file.len(), &Ok(file.clone()));
            others += u64::from(table.cells != tree.cells);
        }
        let back = Tree::load(&file).expect("what is saved is accepted");
        assert_eq!((back.context(), back.cells()), (tree.context, &tree.numbered().cells[..]));
        assert_eq!(back.to_file(), file);
        assert_eq!(back.canonical(), back);
        assert!(file.len() <= MOST_FILE_BYTES);
    });
    println!(
        "trees {}, numberings {}, {others} of them others; different 0",
        times(),
        times() * NUMBERINGS as u64
    );
}

/// A change of one number gives another file, or is refused.
#[test]
fn changed_at_one_place() {
    let mut changed = 0;
    each_tree(23, |tree, file, dice| {
        let mut other = tree.clone();
        let node = NODE_CELLS * dice.below(usize::from(tree.count));
        match dice.below(5) {
            0 => other.context = (tree.context + 1) % (LAST_CONTEXT + 1),
            1 => other.cells[node + FORM] = dice.between(1, 56) as u16,
            2 => other.cells[node + ATTRIBUTES] = dice.below(3) as u16,
            3 => other.cells[node + SYMBOL] = dice.pick(&[0, 1, 127, 128, 16_383, 16_384, 65_535]),
            _ => other.cells[node + DETAIL] = dice.below(28) as u16,
        }
        let meant = meant(&other);
        save(&other, file_bytes(tree.count.into()), &meant);
        if other != tree {
            assert_ne!(meant.as_ref(), Ok(&file));
            changed += u64::from(meant.is_ok());
        }
    });
    println!("changed and accepted {changed}; different 0");
}

#[test]
fn every_length() {
    for index in 0..(times() / 10).clamp(20, 20_000) {
        let tree = Family::Mixed.tree(25, index);
        let file = meant(&tree);
        let length = file.as_ref().map_or(0, Vec::len);
        for lent in near(length) {
            save(&tree, lent, &file);
        }
        save(&tree, 0, &file);
        // Refused tables leave every byte, whatever is lent.
        let wrong = NodeTable { context: 4, ..tree.clone() };
        save(&wrong, length, &meant(&wrong));
        let short = NodeTable { count: tree.count + 1, ..tree };
        save(&short, length + 9, &meant(&short));
    }
}

/// Numbers of one, two and three bytes are written; of three only symbols.
#[test]
fn largest() {
    let dice = &mut Dice::new(26, 0);
    for count in [63, 64, 127, 128, 129, 1_000, 4_095, 4_096] {
        // A call of so many names, in a list of links.
        let mut cells = vec![8, 0, 0, 2, 3, 0, 26, 0, 0, 0, 0, 0];
        for link in (3..=count).step_by(2) {
            let next = if link + 2 <= count { link + 2 } else { 0 };
            if link + 1 <= count {
                cells.extend([56, 0, 0, link + 1, next, 0, 26, 0, 0, 0, 0, MOST_SYMBOL - link]);
            }
        }
        let nodes = (cells.len() / NODE_CELLS) as u16;
        let last = cells.len() - 2 * NODE_CELLS;
        cells[last + SECOND] = 0;
        let table = NodeTable { context: 3, count: nodes, cells };
        let file = meant(&table);
        assert!(file.is_ok(), "{count}");
        for _ in 0..3 {
            let other = numbered(&Draft::of(&table), &table, dice);
            for lent in near(file.as_ref().map_or(0, Vec::len)) {
                save(&other, lent, &file);
            }
        }
    }
}

/// How one file must stand to another.
fn order(first: &[u8], second: &[u8]) -> Result<Ordering, u16> {
    let first = accept::file(first)?;
    Ok(first.cmp(&accept::file(second)?))
}

/// Compares two files.
fn compare(first: &[u8], second: &[u8]) -> Result<Ordering, u16> {
    let answer = tezhukor::cmp(first, second).map_err(Refusal::number);
    assert_eq!(answer, order(first, second), "{first:?} {second:?}");
    answer
}

/// Some files that are alike: a tree and what differs from it in one number, in its
/// context, in its numbering or in its length, and damaged ones.
fn alike(index: u64, dice: &mut Dice) -> Vec<Vec<u8>> {
    let tree = Family::Mixed.tree(27, index);
    let mut files =
        vec![table::write(&tree), table::write(&numbered(&Draft::of(&tree), &tree, dice))];
    for context in 0..=LAST_CONTEXT {
        files.push(table::write(&NodeTable { context, ..tree.clone() }));
    }
    let mut other = tree.clone();
    let node = NODE_CELLS * dice.below(usize::from(tree.count));
    other.cells[node + DETAIL] = dice.below(4) as u16;
    files.push(table::write(&other));
    files.push(table::write(&tree.in_parens(1)));
    files.push(table::write(&Family::Mixed.tree(28, index)));
    let mut damaged = table::write(&tree);
    let at = dice.below(damaged.len());
    damaged[at] = dice.below(256) as u8;
    files.push(damaged);
    let mut short = table::write(&tree);
    short.truncate(dice.below(short.len() + 1));
    files.push(short);
    files
}

/// Total, antisymmetric, transitive, and equal only for equal bytes.
#[test]
fn order_laws() {
    let mut pairs = 0u64;
    for index in 0..(times() / 10).max(20) {
        let dice = &mut Dice::new(29, index);
        let files = alike(index, dice);
        for first in &files {
            for second in &files {
                pairs += 1;
                let Ok(order) = compare(first, second) else { continue };
                assert_eq!(compare(second, first), Ok(order.reverse()));
                assert_eq!(order == Ordering::Equal, first == second);
                let third = &files[dice.below(files.len())];
                if order == Ordering::Less && compare(second, third) == Ok(Ordering::Less) {
                    assert_eq!(compare(first, third), Ok(Ordering::Less));
                }
            }
        }
    }
    println!("pairs of files {pairs}; different 0");
}

/// The first file's checks come first, also where the second's refusal is smaller.
#[test]
fn order_of_checks() {
    let fine = [0, 1, 26, 0, 0, 0, 0, 0];
    let refused: [(&[u8], u16); 6] = [
        (&[0x80], 2),
        (&[4, 1], 3),
        (&[0, 0], 4),
        (&[0, 1, 26], 5),
        (&[0, 1, 57, 0, 0, 0, 0, 0], 6),
        (&[0, 1, 5, 0, 0, 0, 0, 0], 7),
    ];
    for (first, one) in refused {
        assert_eq!(compare(first, &fine), Err(one));
        assert_eq!(compare(&fine, first), Err(one));
        for (second, _) in refused {
            assert_eq!(compare(first, second), Err(one));
        }
        assert_eq!(compare(first, &vec![0; MOST_FILE_BYTES + 1]), Err(one));
    }
    assert_eq!(compare(&vec![0; MOST_FILE_BYTES + 1], &fine), Err(1));
}

/// Only in the context, only in the last number, and as nearly as can be only in length.
#[test]
fn least_differences() {
    use Ordering::*;
    let path = |context| [context, 1, 26, 0, 0, 0, 0, 0];
    assert_eq!(compare(&path(0), &path(1)), Ok(Less));
    assert_eq!(compare(&path(3), &path(2)), Ok(Greater));
    // The last number is a symbol, of one byte or more.
    let symbol = |symbol: u16| table::numbers(&[0, 1, 26, 0, 0, 0, 0, symbol]);
    for symbols in [0, 1, 127, 128, 129, 16_383, 16_384, MOST_SYMBOL].windows(2) {
        let [low, high] = [symbol(symbols[0]), symbol(symbols[1])];
        assert_eq!(compare(&low, &high), Ok(Less));
        assert_eq!(compare(&low, &low), Ok(Equal));
        assert_eq!(compare(&high, &low), Ok(Greater));
    }
    // Of a node without one it is the detail, since the last node has no operands.
    let block = |detail| [0, 1, 6, 0, detail, 0, 0, 0];
    assert_eq!(compare(&block(0), &block(1)), Ok(Less));
    assert_eq!(compare(&block(1), &block(1)), Ok(Equal));
    assert_eq!(compare(&block(1), &block(0)), Ok(Greater));
    assert_eq!(compare(&block(0), &[0, 1, 6, 0, 0, 0, 0, 1]), Err(6));
    assert_eq!(compare(&block(0), &[0, 1, 6, 0, 0, 0, 1, 0]), Err(7));
    // No accepted file's nodes are the beginning of another's: the longer has an operand
    // where the shorter has none.
    let call = |links: u8| {
        let mut file = vec![0, 2 + 2 * links, 8, 0, 0, 2, if links == 0 { 0 } else { 3 }, 0];
        file.extend([26, 0, 0, 0, 0, 0]);
        for link in 1..=links {
            let next = if link == links { 0 } else { 2 * link + 3 };
            file.extend([56, 0, 0, 2 * link + 2, next, 0, 26, 0, 0, 0, 0, 0]);
        }
        file
    };
    for links in 0..20 {
        assert_eq!(compare(&call(links), &call(links + 1)), Ok(Less));
        assert_eq!(compare(&call(links + 1), &call(links)), Ok(Greater));
    }
    let cut = [&[0, 3], &call(0)[2..]].concat();
    assert_eq!(compare(&cut, &call(0)), Err(5));
}
