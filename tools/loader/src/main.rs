//! Loading, comparing and rearranging tree files beside a second statement of the refusals:
//! accepted files, damaged at every byte, cut, extended, and refused twice.

mod counts;
#[path = "../../scale/src/damage.rs"]
mod damage;
#[path = "../../scale/src/files.rs"]
mod files;
mod kinds;
mod library;
mod outside;
mod paired;
mod rearranged;
mod tally;

use damage::Damaged;
use kinds::Kind;
use model::forms::PATH;
use model::generate::{call_of, symbols, Dice, Family, Order, Stem};
use model::sizes::LAST_CONTEXT;
use model::NodeTable;
use rearranged::Rearranged;
use std::process::ExitCode;
use tally::Tally;

const USAGE: &str = "usage:
  loader FILES [SEED]           loads at least so many files, and compares each with one before it
  loader columns FILES [SEED]   rearranges at least so many files, and puts back as many";

fn main() -> ExitCode {
    let number = |text: &str| text.parse::<u64>().ok().filter(|&number| number > 0);
    oracle::command::run(USAGE, |words| {
        let (run, words): (fn(u64, u64) -> u64, _) = match words {
            ["columns", words @ ..] => (rearrange, words),
            words => (load, words),
        };
        match *words {
            [files] => number(files).map(|files| run(files, 1)),
            [files, seed] => number(files).zip(number(seed)).map(|(files, seed)| run(files, seed)),
            _ => None,
        }
    })
}

/// Loads the files of trees in turn until there are so many; the answer is how many differ.
fn load(files: u64, seed: u64) -> u64 {
    let mut tally = Tally::new();
    let mut index = 0;
    while tally.counts.files < files {
        let tree = Family::Mixed.tree(seed, index);
        let dice = &mut Dice::new(seed ^ 0x5EED, index);
        each_file(Kind::Tree, &tree, dice, &mut |file, what| {
            tally.load(file, &format!("{what} of {index}"))
        });
        index += 1;
    }
    println!("{index} trees, seed {seed}");
    tally.finish()
}

/// Of so many trees one has the most nodes.
const LARGE: u64 = 50;

/// A call of as many names as there is room for, under any numbering.
fn large(dice: &mut Dice) -> NodeTable {
    let mut names = std::iter::repeat(vec![Stem::leaf(PATH, 0, 0)]).peekable();
    let context = dice.below(usize::from(LAST_CONTEXT) + 1) as u16;
    let mut tree = call_of(&mut names).number(context, Order::any(dice), dice);
    symbols(&mut tree, dice);
    tree
}

/// Rearranges the tree files of trees in turn and puts back their rearranged files, until there
/// are so many of both; the answer is how many differ.
fn rearrange(files: u64, seed: u64) -> u64 {
    let mut ways = [Kind::Tree, Kind::Columns].map(Rearranged::new);
    let mut index = 0;
    while ways.iter().any(|way| way.counts.files < files) {
        let tree = match index % LARGE {
            0 => large(&mut Dice::new(seed, index)),
            _ => Family::Mixed.tree(seed, index),
        };
        for way in &mut ways {
            let dice = &mut Dice::new(seed ^ 0x5EED, index);
            let kind = way.kind();
            let mut visit = |file: &[u8], what: &str| way.file(file, &format!("{what} of {index}"));
            each_file(kind, &tree, dice, &mut visit);
            if kind == Kind::Columns && tree.count < 60 {
                for outside::Outside { file, what, meant } in outside::files(&tree) {
                    expect(meant, visit(&file, what));
                }
            }
        }
        index += 1;
    }
    println!("{index} trees, seed {seed}");
    ways.map(Rearranged::finish).iter().sum()
}

/// What visits a file, and replies what is stated of it.
type Visit<'a> = &'a mut dyn FnMut(&[u8], &str) -> u16;

/// The file of a tree, damaged ones, and ones that are refused twice.
fn each_file(kind: Kind, tree: &NodeTable, dice: &mut Dice, visit: Visit) {
    let file = kind.write(tree);
    expect(Some(0), visit(&file, "the file"));
    for _ in 0..8 {
        let Damaged { file, meant } = match kind {
            Kind::Tree => damage::damage(tree, dice),
            Kind::Columns => damage::in_file(&kind.numbers(tree), dice),
        };
        expect(meant, visit(&file, "damage"));
    }
    if file.len() < 400 {
        every_byte(&file, dice, visit);
    }
    for paired::Made { file, what, meant } in paired::refused_twice(kind, tree, dice) {
        expect(meant, visit(&file, &what));
    }
}

/// Stops unless a file is stated to have the reply that it is made for.
fn expect(meant: Option<u16>, reply: u16) {
    assert!(meant.is_none_or(|meant| meant == reply), "meant {meant:?}, is {reply}");
}

/// Another byte at every place, a byte more at every place, the file cut at every place, and
/// bytes behind it.
fn every_byte(file: &[u8], dice: &mut Dice, visit: Visit) {
    for at in 0..file.len() {
        let old = file[at];
        let mut other = file.to_vec();
        for byte in [old ^ 0x80, old.wrapping_add(1), dice.below(256) as u8] {
            other[at] = byte;
            visit(&other, &format!("byte {at}"));
        }
        other[at] = old;
        other.insert(at, dice.pick(&[0, 1, 0x7F, 0x80, 0xFF]));
        visit(&other, &format!("a byte before {at}"));
        visit(&file[..at], &format!("{at} bytes"));
    }
    for byte in [0, 1, 0x80] {
        let mut longer = file.to_vec();
        longer.push(byte);
        visit(&longer, "a byte behind");
    }
}
