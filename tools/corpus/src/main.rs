//! Every expression of Rust sources that nobody here wrote, at its place and in its context,
//! through Tezhukor's functions, and what rustc reads where our pairs stand in place of theirs.

mod checks;
mod corpus;
mod figures;
mod places;
mod rewritten;
mod sources;
mod spans;
mod taken;
mod texts;
mod together;

use corpus::Corpus;
use sources::Package;
use std::path::Path;
use std::process::ExitCode;

const USAGE: &str = "usage:
  corpus FOLDER..          each folder in FOLDER is a package of Rust sources
  corpus trees OUT FOLDER..    the same, and writes each distinct tree into the folder OUT
  corpus short             this repository's own Rust files";

fn main() -> ExitCode {
    oracle::command::run(USAGE, |words| match *words {
        [] => None,
        ["short"] => Some(short(&["rust", "tools"])),
        ["trees", out, ref folders @ ..] if !folders.is_empty() => {
            let (corpus, different) = taken(folders);
            corpus.write(Path::new(out)).expect("trees can be written");
            Some(different)
        }
        ref folders => Some(taken(folders).1),
    })
}

/// The packages of some folders.
fn taken(folders: &[&str]) -> (Corpus, u64) {
    let packages = |folder| sources::packages(Path::new(folder)).expect("a folder to be read");
    let packages: Vec<Package> = folders.iter().flat_map(packages).collect();
    let mut corpus = Corpus::default();
    corpus.packages(&packages);
    let different = corpus.finish();
    (corpus, different)
}

/// Folders of this repository, each as a package.
fn short(folders: &[&str]) -> u64 {
    let root = Path::new(env!("CARGO_MANIFEST_DIR")).join("../..");
    let package = |folder| sources::package(&root.join(folder)).expect("a folder to be read");
    let packages: Vec<Package> = folders.iter().map(package).collect();
    let mut corpus = Corpus::default();
    corpus.packages(&packages);
    corpus.finish()
}

#[cfg(test)]
mod tests;
