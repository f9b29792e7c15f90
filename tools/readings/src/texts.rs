//! Plain trees as the Rust crate spells them (`Tree::to_rust`), and what rustc reads there.

use crate::rustc;
use model::codes::Token;
use model::contexts::{self, CONDITION};
use model::generate::named::{names, with_names};
use model::generate::Family;
use model::table::{self, NodeTable};
use model::written::without_parens;
use std::time::Instant;
use tezhukor::text::Names;
use tezhukor::Tree;

/// Larger trees are left out, so that rustc's time goes by their number.
const MOST_NODES: u16 = 200;

/// So many random trees in each context: in 0 every other one without Structs. Gives how
/// many rustc reads as another tree.
pub fn compare(trees: u64, seed: u64) -> u64 {
    let names = Names::new(&names());
    let context = |context| {
        let (start, mut left_out, mut awaits) = (Instant::now(), 0, 0);
        let (mut texts, mut length, mut index) = (Vec::new(), 0, 0);
        while (texts.len() as u64) < trees {
            let table = tree(context, seed, index);
            index += 1;
            let loaded = Tree::load(&table::write(&table)).expect("an accepted tree");
            let tokens: Vec<Token> = loaded.tokens().expect("a plain tree");
            if table.count > MOST_NODES {
                left_out += 1;
            } else if rustc::calls_await(&tokens) {
                awaits += 1;
            } else {
                let text = loaded.to_rust(&names).expect("names that are tokens");
                length += text.len();
                texts.push((text, without_parens(&table)));
            }
        }
        let different = rustc::otherwise(context, &texts);
        println!(
            "texts, context {context}: trees {}, bytes {length}, of more than {MOST_NODES} nodes left out {left_out}, \
             calls of an await left out {awaits}, different {different}, {} s",
            texts.len(),
            start.elapsed().as_secs(),
        );
        different
    };
    contexts::PLAIN.into_iter().map(context).sum()
}

fn tree(context: u16, seed: u64, index: u64) -> NodeTable {
    let family = match context {
        CONDITION => Family::Structs,
        _ if index % 2 == 0 => Family::Plain,
        _ => Family::Structs,
    };
    let mut table = family.tree(seed, index);
    table.context = context;
    with_names(&mut table);
    table
}
