//! Commands that take many files.

use crate::answer::Answer;
use std::ffi::{OsStr, OsString};
use std::io::{IsTerminal, Write};
use std::path::Path;

/// With so many files a terminal is told how far it is.
const MANY: usize = 1_000;

/// How often it is told, in files.
const STEP: usize = 500;

/// The files that are named; a folder stands for those in it and in the folders below it, by
/// name, whose names are wanted.
pub fn gathered(
    named: &[OsString],
    is_wanted: fn(&OsStr) -> bool,
) -> Result<Vec<OsString>, Answer> {
    let mut files = Vec::new();
    for file in named {
        match Path::new(file).is_dir() {
            true => gather(file, is_wanted, &mut files)?,
            false => files.push(file.clone()),
        }
    }
    Ok(files)
}

fn gather(
    file: &OsStr,
    is_wanted: fn(&OsStr) -> bool,
    files: &mut Vec<OsString>,
) -> Result<(), Answer> {
    if !Path::new(file).is_dir() {
        files.extend(is_wanted(file).then(|| file.to_os_string()));
        return Ok(());
    }
    let unreadable =
        |error: std::io::Error| Answer::wrong(format!("{}: {error}", file.to_string_lossy()));
    let entries = std::fs::read_dir(file).map_err(unreadable)?;
    let mut found = Vec::new();
    for entry in entries {
        found.push(entry.map_err(unreadable)?.path().into_os_string());
    }
    found.sort();
    found.iter().try_for_each(|inside| gather(inside, is_wanted, files))
}

/// A line of progress, on a terminal and for many files.
pub struct Progress {
    all: usize,
    shown: bool,
}

impl Progress {
    pub fn new(all: usize) -> Progress {
        Progress { all, shown: all >= MANY && std::io::stderr().is_terminal() }
    }

    pub fn told(&mut self, done: usize) {
        if self.shown && done % STEP == 0 {
            let _ = write!(std::io::stderr(), "\r{done} of {} files", self.all);
        }
    }

    pub fn ended(&mut self) {
        if self.shown {
            let _ = write!(std::io::stderr(), "\r{:1$}\r", "", 40);
        }
    }
}
