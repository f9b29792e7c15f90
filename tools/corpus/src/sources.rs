//! Rust sources in folders.

use std::fs;
use std::path::{Path, PathBuf};

/// A package: its folder's name and its files, by their paths.
pub struct Package {
    pub name: String,
    pub files: Vec<PathBuf>,
}

/// The packages of a folder, by name: each folder in it.
pub fn packages(folder: &Path) -> std::io::Result<Vec<Package>> {
    let folders = entries(folder)?.into_iter().filter(|path| path.is_dir());
    folders.map(|path| package(&path)).collect()
}

/// A folder with all Rust files in it, those of `target` left out.
pub fn package(folder: &Path) -> std::io::Result<Package> {
    let name = folder.file_name().unwrap_or(folder.as_os_str()).to_string_lossy().into_owned();
    let mut files = Vec::new();
    gather(folder, &mut files)?;
    Ok(Package { name, files })
}

fn gather(folder: &Path, files: &mut Vec<PathBuf>) -> std::io::Result<()> {
    for path in entries(folder)? {
        if path.is_dir() && !path.ends_with("target") {
            gather(&path, files)?;
        } else if path.extension().is_some_and(|extension| extension == "rs") {
            files.push(path);
        }
    }
    Ok(())
}

/// What is in a folder, by name. What is behind a link is left out.
fn entries(folder: &Path) -> std::io::Result<Vec<PathBuf>> {
    let mut paths = Vec::new();
    for entry in fs::read_dir(folder)? {
        let entry = entry?;
        if !entry.file_type()?.is_symlink() {
            paths.push(entry.path());
        }
    }
    paths.sort();
    Ok(paths)
}

/// The edition of a file: that of the Cargo.toml nearest above it, 2015 if it names none.
pub fn edition(file: &Path) -> String {
    let manifests = file.ancestors().skip(1).map(|folder| folder.join("Cargo.toml"));
    let manifest = manifests.filter_map(|path| fs::read_to_string(path).ok()).next();
    let line = manifest.as_deref().and_then(|text| {
        let value =
            |line: &str| line.strip_prefix("edition = \"")?.strip_suffix('"').map(str::to_string);
        text.lines().find_map(value)
    });
    line.unwrap_or_else(|| "2015".to_string())
}

/// A source text as rustc takes it: without a mark at its start, and with plain line ends.
pub fn text(file: &Path) -> Option<String> {
    let text = String::from_utf8(fs::read(file).ok()?).ok()?;
    Some(text.strip_prefix('\u{feff}').unwrap_or(&text).replace("\r\n", "\n"))
}
