//! An archive that finds double sheets: files of the same tree in the same context, however
//! their nodes are numbered.

use std::collections::BTreeMap;
use std::error::Error;
use std::path::{Path, PathBuf};
use tezhukor::Tree;

/// The files of a folder that hold the same tree, and those that hold none, as one that cannot be
/// read or a folder.
pub fn doubles(folder: &Path) -> std::io::Result<(Vec<Vec<PathBuf>>, Vec<PathBuf>)> {
    let (mut sheets, mut refused) = (BTreeMap::<Vec<u8>, Vec<PathBuf>>::new(), Vec::new());
    let mut files: Vec<PathBuf> = std::fs::read_dir(folder)?
        .map(|entry| Ok(entry?.path()))
        .collect::<std::io::Result<_>>()?;
    files.sort();
    for file in files {
        match std::fs::read(&file).ok().and_then(|bytes| Tree::load(&bytes).ok()) {
            // One file for one tree: equal bytes are equal trees.
            Some(tree) => sheets.entry(tree.to_file()).or_default().push(file),
            None => refused.push(file),
        }
    }
    Ok((sheets.into_values().filter(|files| files.len() > 1).collect(), refused))
}

fn main() -> Result<(), Box<dyn Error>> {
    let folder = std::env::args().nth(1).ok_or("a folder")?;
    let (doubles, refused) = doubles(Path::new(&folder))?;
    doubles.iter().for_each(|files| println!("the same sheet: {files:?}"));
    refused.iter().for_each(|file| println!("no sheet: {}", file.display()));
    Ok(())
}
