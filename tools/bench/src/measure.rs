//! What sides take: nanoseconds by rounds in which all take turns, or instructions as
//! callgrind counts them.

use crate::cases::Cases;
use crate::sides::Side;
use std::path::{Path, PathBuf};
use std::process::Command;
use std::{env, fs};

pub const ROUNDS: usize = 81;

/// What one side takes in a round, at least.
const ROUND_NANOSECONDS: u64 = 5_000_000;

/// What a side takes for all trees of a set once, by its number, without what this program
/// itself takes; not a number where it is not asked.
pub type Figures = [f64; Side::ALL.len()];

const NO_FIGURES: Figures = [f64::NAN; Side::ALL.len()];

/// Trees that can be asked: of this program, or of one that runs beside it.
pub trait Timed {
    /// The nanoseconds for all trees, so many times each.
    fn time(&mut self, side: Side, repeats: u64) -> u64;
}

/// Nanoseconds, by rounds and in each by programs. All sides take turns, and for each side all
/// programs, another one first in each round.
pub fn rounds<const N: usize>(
    mut programs: [&mut dyn Timed; N],
    sides: &[Side],
) -> Vec<[Figures; N]> {
    let repeats: Vec<u64> = sides
        .iter()
        .map(|&side| (ROUND_NANOSECONDS / programs[0].time(side, 1).max(1)).max(1))
        .collect();
    let round = |round: usize| {
        let mut figures = [NO_FIGURES; N];
        for (&side, &repeats) in sides.iter().zip(&repeats) {
            for program in (0..N).map(|turn| (round + turn) % N) {
                let time = programs[program].time(side, repeats);
                figures[program][side as usize] = time as f64 / repeats as f64;
            }
        }
        figures.map(alone)
    };
    (0..ROUNDS).map(round).collect()
}

/// The lower quartile, the median and the upper quartile.
pub fn quartiles(numbers: impl Iterator<Item = f64>) -> [f64; 3] {
    let mut numbers: Vec<f64> = numbers.collect();
    numbers.sort_by(f64::total_cmp);
    [1, 2, 3].map(|quarter| numbers[quarter * numbers.len() / 4])
}

pub fn median(numbers: impl Iterator<Item = f64>) -> f64 {
    quartiles(numbers)[1]
}

/// This program.
pub fn this() -> PathBuf {
    env::current_exe().expect("a program that runs")
}

/// How many instructions each side takes in a program for a set of that number.
pub fn counts(program: &Path, set: usize, sides: &[Side]) -> Figures {
    let words = ["once".to_string(), set.to_string()];
    let mut figures = NO_FIGURES;
    for (&side, count) in
        sides.iter().zip(instructions_of_calls(program, &words, "asked_once", sides.len()))
    {
        figures[side as usize] = count;
    }
    alone(figures)
}

/// How many instructions each of so many calls of a function takes in a program. callgrind
/// counts one for each byte that `rep stosb` fills, as memset does for some kilobytes.
pub fn instructions_of_calls(
    program: &Path,
    words: &[String],
    function: &str,
    calls: usize,
) -> Vec<f64> {
    let folder = env::temp_dir().join(format!("bench-{}", std::process::id()));
    fs::create_dir_all(&folder).expect("a folder");
    let out = folder.join("counts");
    let output = Command::new("valgrind")
        .args(["--tool=callgrind".to_string(), format!("--toggle-collect={function}")])
        .arg(format!("--dump-after={function}"))
        .arg(format!("--callgrind-out-file={}", out.display()))
        .arg(program)
        .args(words)
        .output()
        .expect("valgrind");
    assert!(output.status.success(), "{}", String::from_utf8_lossy(&output.stderr));
    // There is a file for each call.
    let count = |call: usize| {
        let told = fs::read_to_string(format!("{}.{call}", out.display())).expect("a count");
        let total = told.lines().find_map(|line| line.strip_prefix("totals: "));
        let total = total.unwrap_or_else(|| panic!("no count in: {told}"));
        total.trim().parse().expect("a number of instructions")
    };
    let counts = (1..=calls).map(count).collect();
    fs::remove_dir_all(&folder).expect("a folder");
    counts
}

/// Without what asking nothing takes.
fn alone(figures: Figures) -> Figures {
    figures.map(|figure| figure - figures[Side::Nothing as usize])
}

/// What valgrind looks at: each side once for all trees.
pub fn once(mut cases: Cases) {
    for side in cases.sides() {
        cases.ask(side, 1);
    }
}
