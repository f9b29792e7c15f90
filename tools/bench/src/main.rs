//! Times and counts what the exports take, and beside them the crate's own decisions, on the
//! same trees, in one run.
//!
//!     cargo run --release                         decide beside the crate, nanoseconds a node
//!     cargo run --release -- files                what takes and gives files and tokens
//!     cargo run --release -- edits                edits beside deciding their result
//!     cargo run --release -- open                 operators left open, beside decide
//!     cargo run --release -- all                  every export, on sheets of surveyors' size and on the others
//!     cargo run --release -- beside OLD.a NEW.a   every export of two libraries, by turns (beside.rs)
//!
//! Behind each of these:
//!
//!     times                                       nanoseconds, with warm trees
//!     turns                                       nanoseconds, with cold trees
//!     instructions                                instructions, with valgrind
//!
//! Without one, files take turns, edits and open are counted in instructions, and all else is
//! timed with warm trees. What stands in the tables is in sides.rs (the lines or columns),
//! sets.rs (the trees) and views.rs (which of them).
//!
//!     cargo run --release -- nests [FOLDER]       nests of 4 to 126 levels
//!     cargo run --release -- slowest [FOLDER]     the slowest trees that a search finds
//!     cargo run --release -- reads FILE..         reads of the table a node, with valgrind
//!     cargo run --release -- refused              refused files beside accepted ones, with valgrind
//!     cargo run --release -- archive FOLDER       tree files for tools/store.py (archive.rs)
//!     cargo run --release -- run SET SIDE TIMES   what perf and valgrind look at
//!
//! Inside the timing of `decide` and the crate, for one tree:
//!
//! - decide: one call of tezhukor_decide. It checks the table (refusals 3, 4 and 6
//!   to 11), which the crate has no need of, because its trees cannot be
//!   malformed; it reads operands out of 16-bit cells; it writes all rows.
//!   The buffers are lent again and again.
//! - the checks of it: the same call with no room for rows, which ends with 12 right
//!   after the checks. There is no export that decides without them, so that what
//!   the rest takes is the difference.
//! - the crate, rows: prettyplease's `Printer::expr` prints the root through its
//!   own expr.rs, fixup.rs, precedence.rs and classify.rs, over a Printer whose
//!   layout does nothing, and what a row needs is recorded. expr.rs hands down no
//!   precedence and asks for none where no test needs it, so the recorder asks
//!   fixup.rs for the one of each expression, and for parenthesize, which is also
//!   what the printing does, a second time. Also inside are the recorder's
//!   assertions, and a list of rows that is made anew.
//! - the crate, printing: the same without a recorder. It decides each pair and
//!   each context, keeps nothing, and does not know all precedences: less than a
//!   row. It is what a caller of the crate pays for decisions.
//!
//! Nothing of the crate's corresponds to the other sides. Outside of every timing: node tables,
//! files, tokens, syn trees and buffers. Before the clock starts, all sides' answers are held
//! beside what they must be once.
//!
//! Trees are warm: those of up to 4,096 nodes together are asked once before the
//! clock starts and then over and over. With `turns` all trees of a set take turns
//! instead, so that large ones leave the nearer caches in between.
//!
//! Times are those of the thread, so that what else runs on the machine counts
//! less. In a round all sides take turns; the medians of the rounds' times and of
//! the rounds' ratios count.

mod archive;
mod beside;
mod cases;
mod clock;
mod measure;
mod nests;
mod open;
mod reads;
mod refused;
mod sets;
mod sheets;
mod sides;
mod views;

use sets::{Set, SETS};
use sides::Side;
use std::process::ExitCode;
use views::{How, TURNS, WARM};

fn main() -> ExitCode {
    let arguments: Vec<String> = std::env::args().skip(1).collect();
    let mut words: Vec<&str> = arguments.iter().map(String::as_str).collect();
    let how = words.last().and_then(|word| how(word));
    if how.is_some() {
        words.pop();
    }
    match words[..] {
        [] => views::DECIDE.print(how.unwrap_or(WARM)),
        ["files"] => views::FILES.print(how.unwrap_or(TURNS)),
        ["edits"] => views::EDITS.print(how.unwrap_or(How::Instructions)),
        ["open"] => {
            views::OPEN.print(how.unwrap_or(How::Instructions));
            open::time_full();
        }
        ["all"] => views::ALL.iter().for_each(|view| view.print(how.unwrap_or(WARM))),
        ["beside", old, new] => beside::print([old, new], how.unwrap_or(WARM)),
        ["archive", folder] => archive::write(folder),
        ["nests"] => nests::time_nests(None),
        ["nests", folder] => nests::time_nests(Some(folder)),
        ["slowest"] => nests::search_slowest(None),
        ["slowest", folder] => nests::search_slowest(Some(folder)),
        ["reads", ref files @ ..] if !files.is_empty() => reads::count_reads(files),
        ["read", row_cells, file] => reads::read_once(number(row_cells), file),
        ["refused"] => refused::print(),
        ["load-once", number_of_set] => refused::once(number(number_of_set)),
        ["once", number] => measure::once(How::Instructions.cases(set(number))),
        ["serve", number] => beside::serve(set(number)),
        ["run", number_of_set, side, times] => {
            let side = Side::ALL[number(side)];
            WARM.cases(set(number_of_set)).ask(side, number(times) as u64);
        }
        _ => return usage(),
    }
    ExitCode::SUCCESS
}

fn usage() -> ExitCode {
    eprintln!("usage: bench [files | edits | open | all | beside OLD.a NEW.a] [times | turns | instructions]");
    eprintln!("       bench nests [FOLDER] | slowest [FOLDER] | reads FILE.. | refused | archive FOLDER | run SET SIDE TIMES");
    for (number, set) in SETS.iter().enumerate() {
        eprintln!("set {number}: {}", set.name);
    }
    for side in Side::ALL {
        eprintln!("side {}: {}", side as usize, side.name());
    }
    ExitCode::FAILURE
}

fn how(word: &str) -> Option<How> {
    match word {
        "times" => Some(WARM),
        "turns" => Some(TURNS),
        "instructions" => Some(How::Instructions),
        _ => None,
    }
}

fn number(argument: &str) -> usize {
    argument.parse().expect("a number")
}

fn set(argument: &str) -> &'static Set {
    SETS.get(number(argument)).expect("the number of a set")
}
