//! Files that hold the same tree.

use crate::answer::Answer;
use crate::commands::{loaded, tree_bytes};
use crate::kind::Kind;
use crate::many::{gathered, Progress};
use std::collections::HashMap;
use std::ffi::{OsStr, OsString};

/// The groups of files that hold the same tree in the same context. What is refused or
/// cannot be read is told at the end, and changes nothing for the others.
pub fn listed(named: &[OsString]) -> Result<Answer, Answer> {
    let files = gathered(named, |_| true)?;
    let mut progress = Progress::new(files.len());
    let mut groups: HashMap<Vec<u8>, Vec<&OsStr>> = HashMap::new();
    let mut answer = Answer::done("");
    for (done, file) in files.iter().enumerate() {
        progress.told(done);
        match tree_bytes(file).map(|bytes| loaded(Kind::of(file), &bytes)) {
            Ok(Ok(tree)) => groups.entry(tree.to_file()).or_default().push(file),
            Ok(Err(words)) => answer.tells(Answer::refused_file(file, &words)),
            Err(unreadable) => answer.tells(unreadable),
        }
    }
    progress.ended();
    let mut doubles: Vec<Vec<&OsStr>> =
        groups.into_values().filter(|group| group.len() > 1).collect();
    doubles.sort();
    let texts: Vec<Vec<u8>> = doubles.iter().map(|group| lines(group)).collect();
    answer.output = match texts.is_empty() {
        true => b"no doubles\n".to_vec(),
        false => texts.join(&b"\n"[..]),
    };
    Ok(answer)
}

/// A name to a line.
fn lines(names: &[&OsStr]) -> Vec<u8> {
    names.iter().flat_map(|name| [name.as_encoded_bytes(), b"\n"].concat()).collect()
}
