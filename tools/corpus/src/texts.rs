//! Plain trees as text by the Rust crate, and what rustc reads there.

use crate::places::{places, Name};
use crate::spans::Source;
use crate::together;
use model::contexts::CONDITION;
use model::{table, NodeTable};
use readings::printed;
use tezhukor::text::{Names, Unspelled};
use tezhukor::Tree;

/// Texts in one file.
const BATCH: usize = 250;

/// A plain tree and its text.
struct Spelled {
    tree: NodeTable,
    text: String,
}

/// Trees that wait to be read, and what came of it.
#[derive(Default)]
pub struct Texts {
    waiting: Vec<Spelled>,
    pub trees: u64,
    /// Names that the crate does not spell, as they are no single token, and that have a
    /// stand-in.
    pub stand_ins: u64,
    pub bytes: u64,
    pub different: u64,
}

impl Texts {
    /// A plain tree in context 0 or 3 with its names.
    pub fn tree(&mut self, tree: NodeTable, names: &[Name]) {
        let text = self.spelled(&tree, names);
        self.trees += 1;
        self.bytes += text.len() as u64;
        self.waiting.push(Spelled { tree, text });
    }

    /// The text of a tree. What is not spelled has its number in place of its name.
    fn spelled(&mut self, tree: &NodeTable, names: &[Name]) -> String {
        let tree = Tree::load(&table::write(tree)).expect("an accepted tree");
        let line = |(name, symbol): (&Name, u16)| match name.text.contains('\n') {
            true => stand_in(symbol, name.is_number),
            false => name.text.clone(),
        };
        let mut lines: Vec<String> = names.iter().zip(1..).map(line).collect();
        self.stand_ins += names.iter().filter(|name| name.text.contains('\n')).count() as u64;
        loop {
            match tree.to_rust(&Names::new(&lines.join("\n"))) {
                Ok(text) => return text,
                Err(Unspelled::Name { symbol, line }) => {
                    let at = usize::from(symbol) - 1;
                    let stand_in = stand_in(symbol, names[at].is_number);
                    assert_ne!(line, stand_in, "a stand-in is spelled");
                    lines[at] = stand_in;
                    self.stand_ins += 1;
                }
                Err(Unspelled::NotPlain) => panic!("a plain tree: {tree:?}"),
            }
        }
    }

    /// Has rustc read all texts.
    pub fn judge(&mut self) {
        let waiting = std::mem::take(&mut self.waiting);
        let batches: Vec<&[Spelled]> = waiting.chunks(BATCH).collect();
        let work = |batch: &&[Spelled]| printed::halved(batch, &mut |texts| read(texts));
        together::each(&batches, work, |batch, read| {
            for (spelled, read) in batch.iter().zip(read) {
                if read.as_ref() != Some(&spelled.tree) {
                    self.different += 1;
                    println!("rustc reads {read:?}: {}", spelled.text);
                }
            }
        });
    }

    pub fn print(&self) {
        let Texts { trees, bytes, stand_ins, different, .. } = self;
        println!("texts of plain trees that rustc reads: {trees}, bytes {bytes}");
        println!("  names with a stand-in {stand_ins}");
        println!("  different {different}");
    }
}

/// What stands for a name that is no single token: nothing that a source has, since equal names
/// are one symbol.
fn stand_in(symbol: u16, is_number: bool) -> String {
    if is_number {
        format!("777000{symbol:05}")
    } else {
        format!("stand_in_{symbol}")
    }
}

/// What rustc reads for the texts of one file, if it has no error.
fn read(texts: &[Spelled]) -> Option<Vec<NodeTable>> {
    let line = |spelled: &Spelled| match spelled.tree.context {
        CONDITION => format!("if {} {{ }}\n", spelled.text),
        _ => format!("let _ = {} ;\n", spelled.text),
    };
    let lines: String = texts.iter().map(line).collect();
    let text = format!("fn f() {{\n{lines}}}\n");
    let printed = printed::of_source(&text, "2021").ok()?;
    let parsed = printed::parsed(&printed);
    let found = places(&Source::new(&text), &parsed);
    // The `if`s are statements.
    let meant = found.trees.iter().filter(|tree| model::contexts::PLAIN.contains(&tree.context));
    meant.map(|tree| tree.table()).collect()
}
