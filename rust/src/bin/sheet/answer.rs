//! What a command answers.

use crate::USAGE;
use std::ffi::OsStr;
use tezhukor::text::NoSymbolLeft;
use tezhukor::Refusal;

/// Output, message for people, and exit status.
#[derive(Debug)]
pub struct Answer {
    pub output: Vec<u8>,
    pub message: String,
    pub status: u8,
}

impl Answer {
    /// Done: something for standard output.
    pub fn done(output: impl Into<Vec<u8>>) -> Answer {
        Answer { output: output.into(), message: String::new(), status: 0 }
    }

    /// Refused, in words.
    pub fn refused(message: String) -> Answer {
        Answer { output: Vec::new(), message: format!("sheet: {message}\n"), status: 1 }
    }

    /// Refused, in words, with the file's name.
    pub fn refused_file(file: &OsStr, words: &str) -> Answer {
        Answer::refused(format!("{}: {words}", file.to_string_lossy()))
    }

    /// Tells what came of one file among others.
    pub fn tells(&mut self, of_file: Answer) {
        self.message += &of_file.message;
        self.status = self.status.max(of_file.status);
    }

    /// Wrong usage, or a file that cannot be read or written.
    pub fn wrong(message: String) -> Answer {
        Answer { output: Vec::new(), message: format!("sheet: {message}\n"), status: 2 }
    }

    /// Wrong usage, with the usage text.
    pub fn usage() -> Answer {
        Answer { output: Vec::new(), message: USAGE.to_string(), status: 2 }
    }
}

impl From<NoSymbolLeft> for Answer {
    fn from(full: NoSymbolLeft) -> Answer {
        Answer::refused(full.to_string())
    }
}

/// A refusal with its number and the place that it speaks of.
pub fn words(refusal: Refusal, place: &str) -> String {
    format!("refused ({}){place}: {refusal}", refusal.number())
}
