//! What the commands that compare have in common.

use std::process::ExitCode;

/// Runs a command on the words behind its name. It gives how many differences it
/// found, which are printed, or nothing where the words are none of its own.
pub fn run(usage: &str, command: impl FnOnce(&[&str]) -> Option<u64>) -> ExitCode {
    let words: Vec<String> = std::env::args().skip(1).collect();
    let words: Vec<&str> = words.iter().map(String::as_str).collect();
    match command(&words) {
        None => {
            eprintln!("{usage}");
            ExitCode::FAILURE
        }
        Some(different) => {
            println!("different {different}");
            ExitCode::from(u8::from(different > 0))
        }
    }
}
