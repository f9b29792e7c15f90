//! The program `parens` on many tree files, and files with recorded rows.

mod chosen;
mod damage;
mod files;
mod nests;
mod parens;
mod record;

use std::process::ExitCode;

const USAGE: &str = "usage:
  scale parens FILES [SEED]   crates/parens/out/parens on so many files, beside the crate's own rows
  scale nests [STEP]          the same on nests of 128 levels, each so many-th (1 if not given)
  scale record                writes rows and callees of crates/recorded/data";

fn main() -> ExitCode {
    let number = |text: &str| text.parse::<u64>().ok().filter(|&number| number > 0);
    oracle::command::run(USAGE, |words| match *words {
        ["parens", files] => number(files).map(|files| parens::compare(files, 1)),
        ["parens", files, seed] => {
            number(files).zip(number(seed)).map(|(n, s)| parens::compare(n, s))
        }
        ["nests"] => Some(parens::compare_nests(1)),
        ["nests", step] => number(step).map(parens::compare_nests),
        ["record"] => {
            record::record();
            Some(0)
        }
        _ => None,
    })
}
