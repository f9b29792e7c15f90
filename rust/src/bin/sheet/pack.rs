//! Files rearranged for a store, and put back.

use crate::answer::Answer;
use crate::commands::{blamed, tree_bytes};
use crate::kind::Kind;
use crate::many::{gathered, Progress};
use std::ffi::{OsStr, OsString};
use std::fs::{self, OpenOptions};
use std::io::{self, ErrorKind, Write};

/// Rearranges files, or puts them back, each into a file beside it. What is refused, cannot be
/// read or would take the place of another file is told at the end, and changes nothing for
/// the others.
pub fn rearranged(from: Kind, arguments: &[OsString]) -> Result<Answer, Answer> {
    let is_option = |word: &&OsString| *word == "--overwrite";
    let may_replace = arguments.iter().any(|word| is_option(&word));
    let named: Vec<OsString> = arguments.iter().filter(|word| !is_option(word)).cloned().collect();
    match &named[..] {
        [] => return Err(Answer::usage()),
        [file] if file == "-" => return Ok(Answer::done(made(from, file)?)),
        _ => {}
    }
    let is_wanted = match from {
        Kind::Tree => |file: &OsStr| Kind::of(file) == Kind::Tree,
        Kind::Columns => |file: &OsStr| Kind::of(file) == Kind::Columns,
    };
    let files = gathered(&named, is_wanted)?;
    let (mut progress, mut answer, mut done) = (Progress::new(files.len()), Answer::done(""), 0);
    for (at, file) in files.iter().enumerate() {
        progress.told(at);
        match beside(from, file, may_replace) {
            Ok(()) => done += 1,
            Err(told) => answer.tells(told),
        }
    }
    progress.ended();
    let way = match from {
        Kind::Tree => "packed",
        Kind::Columns => "unpacked",
    };
    answer.output = format!("{way} {done} of {}\n", files.len()).into();
    Ok(answer)
}

/// The bytes of the other kind of file.
fn made(from: Kind, file: &OsStr) -> Result<Vec<u8>, Answer> {
    let bytes = tree_bytes(file)?;
    from.rearranged(&bytes)
        .map_err(|refusal| Answer::refused_file(file, &blamed(from, refusal, &bytes)))
}

/// Writes the other kind of file beside a file.
fn beside(from: Kind, file: &OsStr, may_replace: bool) -> Result<(), Answer> {
    let wrong =
        |file: &OsStr, what: &str| Answer::wrong(format!("{}: {what}", file.to_string_lossy()));
    let Some(name) = from.renamed(file) else {
        return Err(match from {
            Kind::Tree => wrong(file, "a rearranged file by its name"),
            Kind::Columns => wrong(file, "no rearranged file by its name"),
        });
    };
    let bytes = made(from, file)?;
    put(&name, &bytes, may_replace).map_err(|error| match error.kind() {
        ErrorKind::AlreadyExists => {
            wrong(&name, "is there, and stays as it is; --overwrite replaces it")
        }
        _ => wrong(&name, &error.to_string()),
    })
}

/// Writes a file that is not there yet, or if that may be in place of one, which stays until
/// the new one is whole. One that may not be written to stays, and the new one may be read and
/// written by whom the old one may.
pub fn put(name: &OsStr, bytes: &[u8], may_replace: bool) -> io::Result<()> {
    if !may_replace {
        return create(name, bytes);
    }
    let old = fs::metadata(name).ok().filter(fs::Metadata::is_file);
    if old.is_some() {
        OpenOptions::new().write(true).open(name)?;
    }
    let part: OsString = [name, OsStr::new(".part")].into_iter().collect();
    create(&part, bytes).map_err(|error| match error.kind() {
        ErrorKind::AlreadyExists => {
            io::Error::other(format!("{} is there, and must go first", part.to_string_lossy()))
        }
        _ => error,
    })?;
    let placed = old.map_or(Ok(()), |old| fs::set_permissions(&part, old.permissions()));
    let placed = placed.and_then(|()| fs::rename(&part, name));
    placed.inspect_err(|_| drop(fs::remove_file(&part)))
}

/// Writes a file that is not there yet. Where that fails none is left.
fn create(name: &OsStr, bytes: &[u8]) -> io::Result<()> {
    let mut file = OpenOptions::new().write(true).create_new(true).open(name)?;
    file.write_all(bytes).inspect_err(|_| drop(fs::remove_file(name)))
}
