//! Every export of the static libraries on inputs that reach more and more of their machine
//! code, each reply and each lent cell held against the second statement of `rust/model`.

mod arena;
mod ask;
mod blocks;
#[path = "../../bench/src/clock.rs"]
mod clock;
mod corpus;
mod crate_rows;
#[path = "../../scale/src/damage.rs"]
#[allow(dead_code)] // what its files are meant to be refused by
mod damage;
mod driver;
mod input;
mod make;
mod system;
mod traps;
mod watch;

use driver::Driver;
use std::process::ExitCode;

const USAGE: &str = "usage:
  fuzz run INPUTS [SEED]   tries at least so many inputs, the corpus first; what reaches new blocks
                           is kept in target/fuzz-found-SEED
  fuzz short               the corpus and some inputs, in seconds
  fuzz corpus [FOUND ..]   makes the corpus anew, of the present one and of such files: for each
                           block the shortest input that reaches it
  fuzz blocks              the blocks that the corpus does not reach
  fuzz turned TIMES [SEED] turns so many branches of the library, one at a time, and counts those
                           that are told
  fuzz input HEX           tries one input";

/// The longest lists take up to 4.4 MiB of stack.
const STACK: usize = 64 << 20;

fn main() -> ExitCode {
    let asked = std::thread::Builder::new().stack_size(STACK).spawn(|| {
        let words: Vec<String> = std::env::args().skip(1).collect();
        run(&words.iter().map(String::as_str).collect::<Vec<_>>())
    });
    match asked.expect("a thread can be started").join() {
        Ok(Some(0)) => ExitCode::SUCCESS,
        Ok(None) => {
            eprintln!("{USAGE}");
            ExitCode::FAILURE
        }
        _ => ExitCode::FAILURE,
    }
}

/// How many inputs differ, none if the words are no command.
fn run(words: &[&str]) -> Option<u64> {
    let number = |text: &str| text.parse::<u64>().ok();
    Some(match words {
        ["run", inputs] => Driver::new().run_and_tell(number(inputs)?, 1),
        ["run", inputs, seed] => Driver::new().run_and_tell(number(inputs)?, number(seed)?),
        ["short"] => Driver::new().run_short(),
        ["corpus", found @ ..] => Driver::new().make_corpus(found),
        ["turned", times] => Driver::new().turned(number(times)? as usize, 1),
        ["turned", times, seed] => Driver::new().turned(number(times)? as usize, number(seed)?),
        ["turned-at", branch] => Driver::turned_at(branch.parse().ok()?),
        ["blocks"] => Driver::new().unreached(),
        ["input", hex] => Driver::new().one(&corpus::of_hex(hex)?),
        _ => return None,
    })
}
