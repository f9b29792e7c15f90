//! The rows of right spines and of nests, by our library from their tree files,
//! beside the crate's.

use crate::decided::differences_of_file;
use crate::digest::Digest;
use model::generate::Spines;
use model::NodeTable;
use oracle::direct::{context_of_root, Context};
use oracle::Row;
use std::thread;
use std::time::Instant;

/// The crate's rows of a tree for roots in some contexts.
pub type Theirs = fn(&[Context], u16, &[u16]) -> Vec<Vec<Row>>;

pub const CONTEXTS: [u16; 4] = [0, 1, 2, 3];

/// The most forms of the spines that are compared.
pub const LONGEST: u32 = 5;

/// The spines of so many forms that are compared.
pub fn set(length: u32) -> Spines {
    match length {
        1 | 2 => Spines::every(length),
        3 => Spines::over_kinds(3),
        4 => Spines::over_arms(4),
        // Without a next operator, where an operand may have to be asked again.
        _ => Spines { nexts: vec![None], ..Spines::over_arms(length) },
    }
}

/// Spines of so many forms. Gives how often rows differ, and for each block the digest of
/// the crate's rows in context 0.
pub fn compare(length: u32) -> (u64, Vec<u64>) {
    if length != 3 {
        return compare_blocks(&set(length), &CONTEXTS);
    }
    // All of three forms are many: few of them are compared in the other contexts.
    let (different, _) = compare_blocks(&Spines::with_few_ends(3), &CONTEXTS);
    let (more, digests) = compare_blocks(&set(3), &CONTEXTS[..1]);
    (different + more, digests)
}

/// All blocks of spines, on as many threads as there are processors. Context 0 is the
/// first.
fn compare_blocks(spines: &Spines, contexts: &[u16]) -> (u64, Vec<u64>) {
    let start = Instant::now();
    let threads = thread::available_parallelism().map_or(1, usize::from);
    // Each thread takes each so many-th block.
    let parts = thread::scope(|scope| {
        let part = |from| scope.spawn(move || compare_each(spines, contexts, from, threads));
        let parts: Vec<_> = (0..threads).map(part).collect();
        parts.into_iter().map(|part| part.join().expect("no panic")).collect::<Vec<_>>()
    });
    let mut tally = Tally::default();
    let mut digests = vec![0; spines.blocks() as usize];
    for (from, (part, found)) in parts.into_iter().enumerate() {
        tally.files += part.files;
        tally.rows += part.rows;
        tally.different += part.different;
        for (digest, found) in digests.iter_mut().skip(from).step_by(threads).zip(found) {
            *digest = found;
        }
    }
    let name = format!("{}, contexts {}", described("right spines", spines), contexts.len());
    tally.print(&name, start);
    (tally.different, digests)
}

/// Each so many-th block from one on.
fn compare_each(spines: &Spines, contexts: &[u16], from: usize, step: usize) -> (Tally, Vec<u64>) {
    let mut tally = Tally::default();
    let digest_of = |block| {
        let mut digest = Digest::default();
        for tree in spines.block(block) {
            let theirs = tally.compare(tree, contexts, oracle::rows);
            digest.add_rows(&theirs[0].1);
        }
        digest.number()
    };
    let digests = (from as u64..spines.blocks()).step_by(step).map(digest_of).collect();
    (tally, digests)
}

/// The name with the sizes of a set of spines.
pub fn described(name: &str, spines: &Spines) -> String {
    let Spines { nexts, forms, length, ends } = spines;
    let (nexts, forms, ends) = (nexts.len(), forms.len(), ends.len());
    format!("{name}: {length} of {forms} forms, ends {ends}, next operators {nexts}")
}

/// Rows of trees in all four contexts, ours beside the crate's. Gives how often they
/// differ.
pub fn compare_rows(name: &str, trees: impl Iterator<Item = NodeTable>, theirs: Theirs) -> u64 {
    let start = Instant::now();
    let mut tally = Tally::default();
    for tree in trees {
        tally.compare(tree, &CONTEXTS, theirs);
    }
    tally.print(name, start);
    tally.different
}

/// What was compared, and how often rows differed.
#[derive(Default)]
struct Tally {
    files: u64,
    rows: u64,
    different: u64,
}

impl Tally {
    /// The rows of a tree in some contexts. Gives the crate's, context by context.
    fn compare(
        &mut self,
        mut tree: NodeTable,
        contexts: &[u16],
        theirs: Theirs,
    ) -> Vec<(u16, Vec<Row>)> {
        let roots: Vec<Context> = contexts.iter().copied().map(context_of_root).collect();
        let theirs = theirs(&roots, tree.count, &tree.cells);
        let theirs: Vec<_> = contexts.iter().copied().zip(theirs).collect();
        // The file is in another context each time.
        tree.context = contexts[self.files as usize / contexts.len() % contexts.len()];
        self.files += contexts.len() as u64;
        self.rows += contexts.len() as u64 * u64::from(tree.count);
        for difference in differences_of_file(&tree, &theirs) {
            self.different += 1;
            println!("{difference}, for {tree:?}");
        }
        theirs
    }

    fn print(&self, name: &str, start: Instant) {
        let Tally { files, rows, different } = self;
        let seconds = start.elapsed().as_secs();
        println!("{name}; files {files}, rows {rows}, different {different}, {seconds} s");
    }
}
