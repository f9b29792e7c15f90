//! Changes prettyplease's files at one place after the other and sees whether
//! the generators' trees tell.
//!
//!     cargo run --release --bin mutants [-- [--every K] [FILE | FILE:N]...]
//!
//! Without names all changes of all files are made, with `--every K` one in K.
//! For each the oracle is built anew, in the folder `mutants` of the target
//! folder, and its digests are compared with those of the unchanged files: first
//! on few trees, then, if no answer about a tree differs, on a hundred times as
//! many. A line for each says what showed it:
//!
//! - rows, with the sets of trees whose rows differ;
//! - answers, the sets of trees for which only other answers differ; `direct`
//!   are single functions in contexts that no tree leads to;
//! - an assertion of the oracle, or the lack of an end;
//! - NOTHING.

#[path = "../mutation.rs"]
#[allow(dead_code)]
mod mutation;

use mutation::Mutant;
use std::collections::BTreeMap;
use std::io::Read;
use std::path::{Path, PathBuf};
use std::process::{Command, Stdio};
use std::time::{Duration, Instant};

const HERE: &str = env!("CARGO_MANIFEST_DIR");
const EXTENTS: [(&str, u64); 2] = [("quick", 60), ("thorough", 600)];

/// What a built oracle prints for `digest`.
#[derive(PartialEq)]
enum Printed {
    /// A line for each set of trees: its name, the rows' digest and the others'.
    Digests(Vec<[String; 3]>),
    Panic,
    NoEnd,
}

fn main() {
    let mut every = 1;
    let mut names = Vec::new();
    let mut arguments = std::env::args().skip(1);
    while let Some(argument) = arguments.next() {
        match argument.as_str() {
            "--every" => every = arguments.next().and_then(|k| k.parse().ok()).expect("a number"),
            _ => names.push(argument),
        }
    }
    let folder = mutation::source_folder(HERE);
    let texts = mutation::FILES.map(|file| mutation::source(&folder, file));
    let mutants: Vec<(&str, Mutant)> = mutation::FILES
        .iter()
        .zip(&texts)
        .flat_map(|(file, text)| mutation::mutants(file, text).into_iter().map(|one| (*file, one)))
        .filter(|(file, one)| {
            names.is_empty() || names.iter().any(|name| name == file || *name == one.name)
        })
        .step_by(every)
        .collect();

    let oracle = build(None).expect("the unchanged files compile");
    let unchanged = EXTENTS.map(|(extent, seconds)| run(&oracle, extent, seconds));
    let mut totals: BTreeMap<&str, u32> = BTreeMap::new();
    for (file, mutant) in &mutants {
        let shown = match build(Some(&mutant.name)) {
            None => "does not compile".to_string(),
            Some(oracle) => shown(&oracle, &unchanged),
        };
        let Mutant { name, line, old, new, .. } = mutant;
        println!("{name} ({file}.rs line {line}, {old:?} to {new:?}): {shown}");
        let kind = ["does not compile", "rows", "answers", "an assertion", "no end", "NOTHING"]
            .into_iter()
            .find(|kind| shown.starts_with(kind))
            .expect("one of the kinds");
        *totals.entry(kind).or_default() += 1;
    }
    println!("{} changes:", mutants.len());
    for (kind, times) in totals {
        println!("{times:5}  {kind}");
    }
}

/// Builds the oracle with a change. None if it doesn't compile.
fn build(mutant: Option<&str>) -> Option<PathBuf> {
    let target = std::env::var_os("CARGO_TARGET_DIR")
        .map_or_else(|| Path::new(HERE).join("target"), PathBuf::from)
        .join("mutants");
    let cargo = std::env::var_os("CARGO").unwrap_or_else(|| "cargo".into());
    let mut command = Command::new(cargo);
    command
        .args(["build", "-j1", "--quiet", "--profile", "mutant", "--bin", "oracle"])
        .current_dir(HERE)
        .env("CARGO_TARGET_DIR", &target)
        .env_remove("ORACLE_MUTANT")
        .stderr(Stdio::null());
    if let Some(name) = mutant {
        command.env("ORACLE_MUTANT", name);
    }
    let built = command.status().expect("cargo can be run").success();
    built.then(|| target.join("mutant").join("oracle"))
}

/// Runs a built oracle.
fn run(oracle: &Path, extent: &str, seconds: u64) -> Printed {
    let mut child = Command::new(oracle)
        .args(["digest", extent])
        .stdout(Stdio::piped())
        .stderr(Stdio::null())
        .spawn()
        .expect("the oracle can be run");
    let start = Instant::now();
    // What it prints is short, so it never waits for a reader.
    let status = loop {
        if let Some(status) = child.try_wait().expect("a child process") {
            break status;
        }
        if start.elapsed() > Duration::from_secs(seconds) {
            child.kill().expect("a child process");
            child.wait().expect("a child process");
            return Printed::NoEnd;
        }
        std::thread::sleep(Duration::from_millis(5));
    };
    if !status.success() {
        return Printed::Panic;
    }
    let mut text = String::new();
    child.stdout.take().expect("its output").read_to_string(&mut text).expect("text");
    let words = |line: &str| {
        let words: Vec<String> = line.split(' ').map(str::to_string).collect();
        words.try_into().expect("three words a line")
    };
    Printed::Digests(text.lines().map(words).collect())
}

/// What shows that an oracle is built from changed files.
fn shown(oracle: &Path, unchanged: &[Printed; 2]) -> String {
    let mut shown = "NOTHING".to_string();
    for ((extent, seconds), unchanged) in EXTENTS.into_iter().zip(unchanged) {
        let Printed::Digests(expected) = unchanged else {
            panic!("the unchanged files give no digests");
        };
        let found = match run(oracle, extent, seconds) {
            Printed::Panic => return format!("an assertion ({extent})"),
            Printed::NoEnd => return format!("no end ({extent})"),
            Printed::Digests(found) => found,
        };
        let differing = |column: usize| {
            let pairs = expected.iter().zip(&found);
            let names = pairs.filter(|(one, other)| one[column] != other[column]);
            names.map(|(one, _)| one[0].as_str()).collect::<Vec<_>>().join(" ")
        };
        let (rows, others) = (differing(1), differing(2));
        match (rows.is_empty(), others.is_empty()) {
            (false, _) => return format!("rows of {rows} ({extent})"),
            (true, true) => {}
            (true, false) => {
                shown = format!("answers of {others} ({extent})");
                if others != "direct" {
                    return shown;
                }
            }
        }
    }
    shown
}
