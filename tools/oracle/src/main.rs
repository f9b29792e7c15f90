//! The oracle's command line.

use model::generate::{Family, SmallTrees};
use model::{accept, table, CalleeOrder, NodeTable};
use oracle::digest::{digests, Extent};
use oracle::{answers_by, text, Answers};
use std::io::{self, BufReader, BufWriter, Read, Write};
use std::process::ExitCode;

const USAGE: &str = "usage:
  oracle rows [ours] < FILE      the rows of a tree file as `parens` prints them, in the crate's
                                 callee order or in ours
  oracle answers < FILE          what classify.rs and Precedence::of answer, a line a node
  oracle batch [rows|answers]    the same for records on standard input, one text after another
  oracle random SEED N OUT [FAMILY]
                                 N tree files as records, on standard output if OUT is -,
                                 or one file each in the folder OUT
  oracle small SET NODES OUT     likewise all trees of up to so many nodes over a set of labels,
                                 each in the four contexts
  oracle digest [quick|thorough] digests of the answers for many trees
A record is a length, four bytes with the lowest first, and so many bytes of a tree file.
Families: mixed (random, scans, spines and plain in turn), random, scans, spines, plain, structs,
callees.
Sets: every, representative, narrow.";

fn main() -> ExitCode {
    let arguments: Vec<String> = std::env::args().skip(1).collect();
    let arguments: Vec<&str> = arguments.iter().map(String::as_str).collect();
    let done = match arguments[..] {
        ["rows"] => one(CalleeOrder::Crate, text::rows),
        ["rows", "ours"] => one(CalleeOrder::Ours, text::rows),
        ["answers"] => one(CalleeOrder::Crate, text::answers),
        ["batch"] | ["batch", "rows"] => batch(text::rows),
        ["batch", "answers"] => batch(text::answers),
        ["random", seed, trees, out] => random(seed, trees, out, "mixed"),
        ["random", seed, trees, out, family] => random(seed, trees, out, family),
        ["small", set, nodes, out] => small(set, nodes, out),
        ["digest"] | ["digest", "quick"] => digest(Extent::Quick),
        ["digest", "thorough"] => digest(Extent::Thorough),
        _ => Err(USAGE.to_string()),
    };
    match done {
        Ok(()) => ExitCode::SUCCESS,
        Err(message) => {
            eprintln!("{message}");
            ExitCode::FAILURE
        }
    }
}

/// What an error of the system says.
fn said(error: io::Error) -> String {
    error.to_string()
}

/// The answers for a tree file that must be accepted.
fn of_file(order: CalleeOrder, file: &[u8]) -> Result<Answers, String> {
    let refused = |refusal: u16| format!("not an accepted tree: refusal {refusal}");
    let table = table::read(file).map_err(refused)?;
    match accept::refusal(&table) {
        0 => Ok(answers_by(order, table.context, table.count, &table.cells)),
        refusal => Err(refused(refusal)),
    }
}

fn one(order: CalleeOrder, print: fn(&Answers) -> String) -> Result<(), String> {
    let mut file = Vec::new();
    io::stdin().lock().read_to_end(&mut file).map_err(said)?;
    print!("{}", print(&of_file(order, &file)?));
    Ok(())
}

fn batch(print: fn(&Answers) -> String) -> Result<(), String> {
    let mut input = BufReader::new(io::stdin().lock());
    let mut output = BufWriter::new(io::stdout().lock());
    while let Some(file) = read_record(&mut input).map_err(said)? {
        let answers = of_file(CalleeOrder::Crate, &file)?;
        output.write_all(print(&answers).as_bytes()).map_err(said)?;
    }
    output.flush().map_err(said)
}

/// The next record, none at the end.
fn read_record(input: &mut impl Read) -> io::Result<Option<Vec<u8>>> {
    let mut length = [0; 4];
    if input.read(&mut length[..1])? == 0 {
        return Ok(None);
    }
    input.read_exact(&mut length[1..])?;
    let mut file = vec![0; u32::from_le_bytes(length) as usize];
    input.read_exact(&mut file)?;
    Ok(Some(file))
}

fn number(text: &str) -> Result<u64, String> {
    text.parse().map_err(|_| format!("no number: {text}"))
}

fn random(seed: &str, trees: &str, out: &str, family: &str) -> Result<(), String> {
    let (seed, trees) = (number(seed)?, number(trees)?);
    let family = Family::named(family).ok_or_else(|| format!("no family: {family}"))?;
    write_trees(out, (0..trees).map(|index| family.tree(seed, index)))
}

fn small(set: &str, nodes: &str, out: &str) -> Result<(), String> {
    let nodes = number(nodes)? as usize;
    let trees = match set {
        "every" => SmallTrees::every_label(nodes),
        "representative" => SmallTrees::representative(nodes),
        "narrow" => SmallTrees::narrow(nodes),
        _ => return Err(format!("no set: {set}")),
    };
    let trees = &trees;
    let tables = (0..trees.len()).flat_map(|at| (0..4).map(move |context| trees.tree(context, at)));
    write_trees(out, tables)
}

/// Writes tree files as records on standard output, or one by one into a folder.
fn write_trees(out: &str, tables: impl Iterator<Item = NodeTable>) -> Result<(), String> {
    if out != "-" {
        std::fs::create_dir_all(out).map_err(said)?;
    }
    let mut output = BufWriter::new(io::stdout().lock());
    for (index, table) in tables.enumerate() {
        let file = table::write(&table);
        if out == "-" {
            output.write_all(&(file.len() as u32).to_le_bytes()).map_err(said)?;
            output.write_all(&file).map_err(said)?;
        } else {
            let path = std::path::Path::new(out).join(format!("{index:08}.tree"));
            std::fs::write(path, file).map_err(said)?;
        }
    }
    output.flush().map_err(said)
}

fn digest(extent: Extent) -> Result<(), String> {
    for digest in digests(extent) {
        println!("{} {:016x} {:016x}", digest.trees, digest.rows, digest.others);
    }
    Ok(())
}
