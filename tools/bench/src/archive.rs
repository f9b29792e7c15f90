//! Writes an archive of tree files, each the one file of its tree, for `tools/store.py`:
//!
//! - recorded: the accepted trees of the recorded files, rows and tokens, each once, and of
//!   these every fourth.
//! - sheets: made like surveyors' sheets (sheets.rs).
//! - large: calls whose arguments are such formulas, of some 1,000 nodes each.

use crate::sheets::Sheet;
use model::recorded::records;
use model::table;
use std::collections::BTreeSet;
use std::path::Path;
use tezhukor::Tree;

const SHEETS: u64 = 2_000;
const LARGE_SHEETS: u64 = 100;

/// Writes both sets into a folder.
pub fn write(folder: &str) {
    let recorded: BTreeSet<Vec<u8>> = ["files", "rows", "tokens"]
        .into_iter()
        .flat_map(records)
        .filter_map(|record| Tree::load(&record.bytes).ok())
        .map(|tree| tree.to_file())
        .collect();
    put(&Path::new(folder).join("recorded"), recorded.into_iter().step_by(4));
    for (name, sheets, make) in
        [("sheets", SHEETS, Sheet::make as fn(&mut Sheet)), ("large", LARGE_SHEETS, Sheet::large)]
    {
        let made = (0..sheets).map(|index| table::write(&Sheet::made(7, index, make)));
        put(&Path::new(folder).join(name), made);
    }
}

fn put(folder: &Path, files: impl Iterator<Item = Vec<u8>>) {
    std::fs::create_dir_all(folder).expect("a folder");
    for (number, file) in files.enumerate() {
        std::fs::write(folder.join(format!("{number:05}.tree")), file).expect("a file");
    }
}
