//! Packages, file by file.

use crate::checks::{in_plain_context, Checks};
use crate::figures::{Classes, Figure, Figures};
use crate::sources::{edition, text, Package};
use crate::taken::{Joined, Named, Taken};
use crate::texts::Texts;
use crate::together;
use model::table;
use model::written::is_plain;
use std::collections::HashSet;
use std::path::Path;

/// All that was met.
#[derive(Default)]
pub struct Corpus {
    total: Figures,
    checks: Checks,
    texts: Texts,
    /// The distinct trees by their files.
    distinct: HashSet<Vec<u8>>,
    source_alone: Classes,
    ours_alone: Classes,
}

impl Corpus {
    /// Takes all files of some packages.
    pub fn packages(&mut self, packages: &[Package]) {
        let of_package = |(at, package): (usize, &Package)| {
            batches(package).into_iter().map(move |batch| (at, batch)).collect::<Vec<_>>()
        };
        let batches: Vec<(usize, Batch)> = (0..).zip(packages).flat_map(of_package).collect();
        let mut figures = vec![Figures::default(); packages.len()];
        let mut left: Vec<usize> = packages.iter().map(|package| package.files.len()).collect();
        let work = |(_, batch): &(usize, Batch)| batch.taken();
        together::each(&batches, work, |(package, batch), taken| {
            let own = &mut figures[*package];
            own.count(Figure::Files, batch.files.len() as u64);
            own.count(Figure::Lines, batch.lines());
            for taken in taken {
                match taken {
                    Ok(taken) => self.take(taken, own),
                    Err(said) => {
                        own.count(Figure::Unparsed, 1);
                        println!("not parsed: {said}");
                    }
                }
            }
            left[*package] -= batch.files.len();
            if left[*package] == 0 {
                own.print_line(&packages[*package].name);
            }
        });
        figures.iter().for_each(|figures| self.total.add(figures));
    }

    /// Takes what a file gave.
    pub fn take(&mut self, taken: Taken, figures: &mut Figures) {
        taken.told.iter().for_each(|told| println!("{told}"));
        figures.add(&taken.figures);
        self.source_alone.count(taken.source_alone);
        self.ours_alone.count(taken.ours_alone);
        for Named { tree, names } in taken.trees {
            if self.distinct.insert(table::write(&tree)) {
                self.checks.tree(&tree);
                if is_plain(&tree) {
                    self.texts.tree(in_plain_context(&tree), &names);
                }
            }
        }
    }

    /// Writes the distinct trees into a folder, a file each, by their order.
    pub fn write(&self, folder: &Path) -> std::io::Result<()> {
        std::fs::create_dir_all(folder)?;
        let mut files: Vec<_> = self.distinct.iter().collect();
        files.sort();
        for (number, file) in files.into_iter().enumerate() {
            std::fs::write(folder.join(format!("{number:06}.tree")), file)?;
        }
        Ok(())
    }

    /// Has rustc read the texts, prints what was counted, and gives how often something
    /// differed.
    pub fn finish(&mut self) -> u64 {
        self.texts.judge();
        self.source_alone.print("pairs of the source alone, what they stand round");
        self.ours_alone.print("pairs of ours alone, what they stand round");
        self.total.print();
        self.checks.print();
        self.texts.print();
        self.checks.different + self.texts.different + self.total.of(Figure::Otherwise)
    }
}

/// Files of one edition that rustc reads at a time, by their names and texts.
struct Batch {
    edition: String,
    files: Vec<(String, String)>,
}

/// A batch ends with the file that takes it to so many bytes.
const BATCH: usize = 200_000;

/// The files of a package. One that is no text is an empty one.
fn batches(package: &Package) -> Vec<Batch> {
    let mut batches: Vec<Batch> = Vec::new();
    for path in &package.files {
        let (edition, text) = (edition(path), text(path).unwrap_or_default());
        let file = (path.display().to_string(), text);
        match batches.last_mut() {
            Some(batch) if batch.edition == edition && batch.bytes() < BATCH => {
                batch.files.push(file);
            }
            _ => batches.push(Batch { edition, files: vec![file] }),
        }
    }
    batches
}

impl Batch {
    fn bytes(&self) -> usize {
        self.files.iter().map(|(_, text)| text.len()).sum()
    }

    fn lines(&self) -> u64 {
        self.files.iter().map(|(_, text)| text.lines().count() as u64).sum()
    }

    /// What its files give; each alone, or why it gives nothing, if rustc does not parse all.
    fn taken(&self) -> Vec<Result<Taken, String>> {
        if let Ok(taken) = Taken::new(&Joined::new(&self.files), &self.edition) {
            return vec![Ok(taken)];
        }
        let alone = |file: &(String, String)| {
            let taken = Taken::new(&Joined::new(std::slice::from_ref(file)), &self.edition);
            taken.map_err(|said| format!("{}: {}", file.0, said.lines().next().unwrap_or("")))
        };
        self.files.iter().map(alone).collect()
    }
}
