//! Every reading of a token list, and what is held against them.

mod changes;
mod commas;
mod fewest;
mod lists;
mod long;
mod makers;
mod ours;
mod plain;
mod read;
mod record;
mod rustc;
#[cfg(feature = "library")]
mod texts;
mod trees;
mod written;

use lists::Asked;
use model::contexts;
use model::rules::Change;
use ours::Ours;
use std::process::ExitCode;

const USAGE: &str = "usage:
  readings trees [OURS [SEED]]   what is written for plain trees, beside its readings
  readings lists [OURS [SEED [CHANGE]]]    token lists and their verdicts
  readings commas [OURS [SEED [CHANGE]]]   lists with commas before what closes something
  readings fewest [OURS [SEED [SMALLER]]]  every way of putting pairs round operands, on trees so
                                           many nodes smaller than those of trees, 1 if not given
  readings long library [NAME]   the longest lists: our reader's answer, time and stack
  readings rustc TREES PAIRS [SEED]   rustc beside the readings, so many random trees and pairs
  readings commas rustc TREES PAIRS [SEED]   the part of it with such commas
  readings conditions rustc TREES PAIRS [SEED]   the part of it in context 3
  readings texts rustc TREES [SEED]   with the feature library: so many trees in each context as
                                 the Rust crate spells them, and what rustc reads there
  readings changes [CHANGE ..]   each rule changed, or these: how many trees and lists tell
  readings record                writes crates/recorded/data/readings and tokens
OURS: absent, programs (crates/tokens/out/tokens and crates/reading/out/reading), or with the feature library
      library (the static library of answers)
CHANGE: a rule that is changed, by its name in rust/model/src/rules.rs";

fn main() -> ExitCode {
    oracle::command::run(USAGE, run)
}

/// What rustc says, or a part of it, by so many trees and pairs and a seed.
fn judged(part: Option<&str>, numbers: &[&str]) -> Option<u64> {
    let numbers: Option<Vec<u64>> = numbers.iter().map(|number| number.parse().ok()).collect();
    let (trees, pairs, seed) = match numbers?[..] {
        [trees, pairs] => (trees, pairs, 1),
        [trees, pairs, seed] => (trees, pairs, seed),
        _ => return None,
    };
    let contexts: &[u16] =
        if part == Some("conditions") { &[contexts::CONDITION] } else { &contexts::PLAIN };
    let all = contexts.iter().map(|&context| {
        let asked = rustc::Asked { context, trees, pairs, seed };
        let trees = if part == Some("commas") { 0 } else { rustc::compare(asked) };
        trees + rustc::commas(asked)
    });
    Some(all.sum())
}

fn run(arguments: &[&str]) -> Option<u64> {
    let number = |text: &&str| text.parse::<u64>().ok();
    match arguments {
        ["changes"] => Some(changes::try_all(Change::all())),
        ["changes", names @ ..] => {
            let changes: Option<Vec<Change>> =
                names.iter().map(|name| Change::named(name)).collect();
            Some(changes::try_all(changes?.into_iter()))
        }
        ["record"] => {
            record::record();
            Some(0)
        }
        ["long", "library"] => long::all(),
        ["long", library, name] => long::one(&mut Ours::named(library)?, name),
        [part @ ("commas" | "conditions"), "rustc", numbers @ ..] => judged(Some(part), numbers),
        ["rustc", numbers @ ..] => judged(None, numbers),
        #[cfg(feature = "library")]
        ["texts", "rustc", trees, rest @ ..] => {
            Some(texts::compare(number(trees)?, rest.first().map_or(Some(1), number)?))
        }
        ["fewest", rest @ ..] => {
            let mut ours = Ours::named(rest.first().unwrap_or(&"absent"))?;
            let seed = rest.get(1).map_or(Some(1), number)?;
            let smaller = rest.get(2).map_or(Some(1), number)? as usize;
            Some(fewest::compare(&mut ours, smaller, 20_000 >> smaller, seed))
        }
        [what, rest @ ..] => {
            let mut ours = Ours::named(rest.first().unwrap_or(&"absent"))?;
            let seed = rest.get(1).map_or(Some(1), number)?;
            let change = match rest.get(2) {
                Some(name) => Some(Change::named(name)?),
                None => None,
            };
            let smaller = ours.shorter();
            let asked = |lists| Asked { smaller, lists, seed, change };
            // A program takes a thousand times as long as a function.
            match (*what, ours.is_slow()) {
                ("trees", false) => Some(trees::compare(&mut ours, 0, 100_000, seed)),
                ("trees", true) => Some(trees::compare(&mut ours, 2, 2_000, seed)),
                ("lists", false) => Some(lists::compare(&mut ours, asked(1_000_000))),
                ("lists", true) => Some(lists::compare(&mut ours, asked(20_000))),
                ("commas", false) => Some(commas::compare(&mut ours, asked(400_000))),
                ("commas", true) => Some(commas::compare(&mut ours, asked(8_000))),
                _ => None,
            }
        }
        [] => None,
    }
}
