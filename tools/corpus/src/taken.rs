//! What a file holds, and what rustc reads there with our pairs.

use crate::figures::{class, Figure, Figures};
use crate::places::{places, Found, Name};
use crate::rewritten::{otherwise, Apart, Compared, Pairs};
use crate::spans::Source;
use model::forms::Class;
use model::written::is_plain;
use model::{accept, table, NodeTable};
use readings::printed::{self, Value};
use std::collections::HashMap;
use tezhukor::Tree;

/// A text that is shown has so many characters at the most.
const SHOWN: usize = 160;

/// A tree with what its symbols stand for.
pub struct Named {
    pub tree: NodeTable,
    pub names: Vec<Name>,
}

/// What a file gives.
#[derive(Default)]
pub struct Taken {
    pub figures: Figures,
    /// The distinct trees, in the order in which they are met.
    pub trees: Vec<Named>,
    /// What pairs stand round that only the source has, and that only we have.
    pub source_alone: Vec<String>,
    pub ours_alone: Vec<String>,
    /// What is to be told.
    pub told: Vec<String>,
    /// The pairs of each distinct tree, by its file.
    pairs: HashMap<Vec<u8>, Pairs>,
}

/// Files that rustc reads as one: each is a module of its own.
pub struct Joined {
    text: String,
    /// The line before the first one of each file, and its name.
    files: Vec<(usize, String)>,
}

impl Joined {
    /// Files by their names and texts. One alone is as it is.
    pub fn new(files: &[(String, String)]) -> Joined {
        let mut joined = Joined { text: String::new(), files: Vec::new() };
        for (at, (name, text)) in files.iter().enumerate() {
            let is_alone = files.len() == 1;
            let head = if is_alone { String::new() } else { format!("mod m{at} {{\n") };
            joined.text.push_str(&head);
            joined.files.push((joined.text.lines().count(), name.clone()));
            joined.text.push_str(text);
            joined.text.push_str(if is_alone { "" } else { "\n}\n" });
        }
        joined
    }

    /// The file and the line of a line of the whole.
    fn place(&self, line: usize) -> String {
        let at = self.files.partition_point(|(before, _)| *before < line);
        let (before, name) = &self.files[at - 1];
        format!("{name}:{}", line - before)
    }
}

/// Files and their text.
struct File<'a> {
    joined: &'a Joined,
    source: Source<'a>,
}

impl File<'_> {
    /// Where a pair stands that only one side has, and what it stands round.
    fn shown(&self, tree: &NodeTable, apart: &Apart) -> String {
        let place = self.joined.place(self.source.line(apart.bytes.start));
        let text = shown(&self.source.text[apart.bytes.clone()]);
        format!("{place}: {}: {text}", class(tree, apart.node as u16))
    }
}

impl Taken {
    /// Takes files of an edition. Refused is what rustc does not parse.
    pub fn new(joined: &Joined, edition: &str) -> Result<Taken, String> {
        let printed = printed::of_source(&joined.text, edition)?;
        let mut taken = Taken::default();
        let file = File { joined, source: Source::new(&joined.text) };
        let value = printed::parsed(&printed);
        let found = places(&file.source, &value);
        taken.figures.count(Figure::Patterns, found.in_patterns);
        taken.figures.count(Figure::Macros, found.macros);
        let trees = found.trees.into_iter().filter_map(|found| taken.tree(&file, found)).collect();
        taken.reread(&file, edition, &value, trees);
        taken.pairs.clear();
        Ok(taken)
    }

    /// Counts a tree and its pairs, if it is neither too large nor too deep.
    fn tree(&mut self, file: &File, found: Found) -> Option<(NodeTable, Compared)> {
        let contexts = [Figure::None, Figure::Statements, Figure::Arms, Figure::Conditions];
        self.figures.count(Figure::Trees, 1);
        self.figures.count(contexts[usize::from(found.context)], 1);
        self.figures.count(Figure::OtherArguments, found.taken.other_arguments as u64);
        let tree = found.table().filter(|tree| match accept::refusal(tree) {
            0 => true,
            4 | 11 => false,
            refusal => panic!("a tree is refused by {refusal}: {tree:?}"),
        });
        let Some(tree) = tree else {
            self.figures.count(Figure::TooLarge, 1);
            return None;
        };
        let expressions = expressions(&tree);
        self.figures.count(Figure::Expressions, expressions);
        if is_plain(&tree) {
            self.figures.count(Figure::Plain, 1);
            self.figures.count(Figure::PlainExpressions, expressions);
        }
        let bytes = table::write(&tree);
        let pairs = self.pairs.entry(bytes).or_insert_with_key(|bytes| {
            let (tree, names) = (tree.clone(), found.names.clone());
            self.trees.push(Named { tree, names });
            Pairs::new(&Tree::load(bytes).expect("what the model accepts"))
        });
        let compared = Compared::new(&file.source, &found, pairs);
        self.compare(file, &tree, &compared);
        Some((tree, compared))
    }

    fn compare(&mut self, file: &File, tree: &NodeTable, compared: &Compared) {
        let Compared { both, source_alone, ours_alone, inner, before_else, .. } = compared;
        let [source, ours] = [source_alone, ours_alone].map(|alone| alone.len() as u64);
        for (figure, times) in [
            (Figure::SourcePairs, both + source),
            (Figure::OurPairs, both + ours),
            (Figure::Both, *both),
            (Figure::SourceAlone, source),
            (Figure::OursAlone, ours),
            (Figure::InnerPairs, *inner),
            (Figure::BeforeElse, u64::from(*before_else)),
        ] {
            self.figures.count(figure, times);
        }
        let class = |apart: &Apart| class(tree, apart.node as u16);
        self.source_alone.extend(source_alone.iter().map(class));
        self.ours_alone.extend(ours_alone.iter().map(class));
        let told = ours_alone.iter().map(|apart| file.shown(tree, apart));
        self.told.extend(told.map(|apart| format!("ours alone: {apart}")));
    }

    /// Has rustc read the file again with our pairs in place of its own.
    fn reread(
        &mut self,
        file: &File,
        edition: &str,
        value: &Value,
        mut trees: Vec<(NodeTable, Compared)>,
    ) {
        trees.retain(|(_, compared)| compared.is_changed());
        self.figures.count(Figure::Changed, trees.len() as u64);
        let changed: Vec<(usize, &Compared)> =
            (0..).zip(trees.iter().map(|tree| &tree.1)).collect();
        for (at, said) in otherwise(&file.source, edition, value, &changed) {
            self.figures.count(Figure::Otherwise, 1);
            let (tree, compared) = &trees[at];
            for apart in compared.source_alone.iter().chain(&compared.ours_alone) {
                self.told.push(format!("read otherwise: {said}: {}", file.shown(tree, apart)));
            }
        }
    }
}

fn expressions(tree: &NodeTable) -> u64 {
    let is_expression = |&node: &u16| table::class(&tree.cells, node) == Class::Expression;
    (1..=tree.count).filter(is_expression).count() as u64
}

/// A text on one line, cut where it is long.
fn shown(text: &str) -> String {
    let line = text.split_whitespace().collect::<Vec<_>>().join(" ");
    match line.char_indices().nth(SHOWN) {
        Some((end, _)) => format!("{} ..", &line[..end]),
        None => line,
    }
}
