//! The program `parens` beside the crate's own rows with our test of a callee, file by file.

use crate::damage::damage;
use crate::{files, nests};
use model::generate::{Dice, Family, SmallTrees, Spines, NESTS};
use model::{table, CalleeOrder, NodeTable};
use oracle::text;
use std::io::{ErrorKind, Read, Write};
use std::path::PathBuf;
use std::process::{Command, Stdio};
use std::time::{Duration, Instant};

/// What came of a set of files.
#[derive(Default)]
struct Tally {
    files: u64,
    /// Accepted at 0, refused at the number of the refusal.
    replies: [u64; 12],
    rows: u64,
    most_nodes: u16,
    large: u64,
    different: u64,
    /// The longest that the program took for a file, its start and its end included.
    longest: Duration,
    /// The shortest file with a difference.
    shortest: Option<Vec<u8>>,
}

impl Tally {
    /// Runs the program on a file and compares all that it prints.
    fn compare(&mut self, program: &PathBuf, file: Vec<u8>, meant: Option<u16>) {
        let found = files::read(&file);
        let reply = found.as_ref().map_or_else(|&refusal| refusal, |_| 0);
        assert!(meant.is_none_or(|meant| meant == reply), "meant {meant:?}, is {reply}: {file:?}");
        let expected = match found {
            Err(refusal) => format!("no {refusal}\n"),
            Ok(tree) => self.rows_of(&tree),
        };
        self.files += 1;
        self.replies[usize::from(reply)] += 1;
        let (printed, mut time) = run(program, &file);
        // A busy machine lets programs wait: what seems longest is timed again.
        for _ in 0..9 {
            if time > self.longest {
                time = time.min(run(program, &file).1);
            }
        }
        self.longest = self.longest.max(time);
        if printed != expected.as_bytes() {
            self.different += 1;
            let shown = file.len() < 200 || self.shortest.is_none();
            if shown && self.different <= 20 {
                let printed = String::from_utf8_lossy(&printed);
                println!("file {file:?}\nprinted {printed}expected {expected}");
            }
            if self.shortest.as_ref().is_none_or(|shortest| file.len() < shortest.len()) {
                self.shortest = Some(file);
            }
        }
    }

    /// What is printed for an accepted tree, by the crate's own rows in our callee order.
    fn rows_of(&mut self, tree: &NodeTable) -> String {
        self.most_nodes = self.most_nodes.max(tree.count);
        self.large += u64::from(tree.count > 1_000);
        let text = text::rows(&nests::answers(CalleeOrder::Ours, tree));
        self.rows += text.lines().count() as u64 - 1;
        text
    }

    fn print(&self, name: &str) {
        let refused: Vec<String> = self.replies[1..].iter().map(u64::to_string).collect();
        println!(
            "{name}: files {}, different {}, accepted {}, rows {}, most nodes {}, of more than \
             1,000 nodes {}, longest run {:.2} ms\n  refused by 1 to 11: {}",
            self.files,
            self.different,
            self.replies[0],
            self.rows,
            self.most_nodes,
            self.large,
            self.longest.as_secs_f64() * 1e3,
            refused.join(", "),
        );
        if let Some(file) = &self.shortest {
            println!("  shortest file with a difference: {file:?}");
        }
    }
}

/// What the program prints for a file on its standard input, and how long it takes.
fn run(program: &PathBuf, file: &[u8]) -> (Vec<u8>, Duration) {
    let start = Instant::now();
    let mut child = Command::new(program)
        .stdin(Stdio::piped())
        .stdout(Stdio::piped())
        .spawn()
        .expect("crates/parens/out/parens runs");
    let written = child.stdin.take().expect("its input").write_all(file);
    // Of a file that is too long the program reads no more than it needs.
    assert!(written.is_ok() || written.is_err_and(|error| error.kind() == ErrorKind::BrokenPipe));
    let mut printed = Vec::new();
    child.stdout.take().expect("its output").read_to_end(&mut printed).expect("it prints");
    let status = child.wait().expect("it ends");
    assert!(status.success(), "{status} for {file:?}");
    (printed, start.elapsed())
}

fn program() -> PathBuf {
    PathBuf::from(env!("CARGO_MANIFEST_DIR")).join("../../crates/parens/out/parens")
}

/// Runs the program on nests of 128 levels, of the two and of the three forms by turns
/// each so many-th, and gives how often what it prints differs.
pub fn compare_nests(step: u64) -> u64 {
    let mut nests = Vec::new();
    for spines in [Spines::with_few_ends(2), Spines::over_arms(3)] {
        let indexes = (0..spines.len()).step_by(step as usize).enumerate();
        nests.extend(indexes.map(|(at, index)| spines.nest((at % 4) as u16, index)));
    }
    for nest in NESTS {
        nests.extend((0..4).map(|context| nest.longest(context)));
    }
    let mut tally = Tally::default();
    for nest in nests {
        tally.compare(&program(), table::write(&nest), Some(0));
    }
    tally.print("nests of 128 levels");
    tally.different
}

/// Runs the program on so many files or some more, and gives how often what it
/// prints differs.
pub fn compare(files: u64, seed: u64) -> u64 {
    let program = program();
    let start = Instant::now();
    let mut different = 0;
    let mut end = |name: &str, tally: Tally| {
        tally.print(name);
        println!("  {} s", start.elapsed().as_secs());
        different += tally.different;
    };
    let small = SmallTrees::every_label(2);
    // All of them where they are at most a third of the files.
    let step = (3 * 4 * small.len()).div_ceil(files).max(1);
    let mut tally = Tally::default();
    for index in (0..4 * small.len()).step_by(step as usize) {
        let tree = small.tree((index % 4) as u16, index / 4);
        tally.compare(&program, table::write(&tree), Some(0));
    }
    let left = files.saturating_sub(tally.files);
    end("every tree of up to 2 nodes in four contexts", tally);
    let families = [Family::Random, Family::Scans, Family::Spines, Family::Plain, Family::Callees];
    let part = 2 * families.len() as u64;
    for (family, dice_seed) in families.into_iter().zip(seed + 2..) {
        let mut tally = Tally::default();
        for index in 0..left / part {
            let mut tree = family.tree(seed, index);
            if family == Family::Plain {
                tree.context = (index % 4) as u16;
            }
            tally.compare(&program, table::write(&tree), Some(0));
        }
        end(family.name(), tally);
        let mut tally = Tally::default();
        for index in 0..left.div_ceil(part) {
            let damaged = damage(&family.tree(seed + 1, index), &mut Dice::new(dice_seed, index));
            tally.compare(&program, damaged.file, damaged.meant);
        }
        end(&format!("{}, damaged", family.name()), tally);
    }
    different
}
