//! A step of a build that refuses a sheet whose text does not read back: for each NAME it
//! holds NAME.rs, the expression that is compiled, against NAME.tree and NAME.names.

use std::error::Error;
use std::process::ExitCode;
use tezhukor::text::{lexer, Symbols};
use tezhukor::Tree;

/// Whether a text reads as a plain sheet, its own parentheses left aside.
pub fn reads_back(sheet: &[u8], names: &str, text: &str) -> Result<bool, Box<dyn Error>> {
    let sheet = Tree::load(sheet)?;
    // What is written for a sheet reads as the sheet without its own parentheses: proved.
    let meant = Tree::read(sheet.context(), &sheet.tokens()?)?;
    // A name that the sheet does not have gets a symbol that it does not have.
    let mut symbols = Symbols::of(names, &sheet);
    let tokens = lexer::named(text, |word| symbols.symbol(word))?;
    symbols.names()?;
    Ok(Tree::read(sheet.context(), &tokens) == Ok(meant))
}

fn main() -> Result<ExitCode, Box<dyn Error>> {
    let (mut status, sheets) = (ExitCode::SUCCESS, std::env::args().skip(1).collect::<Vec<_>>());
    if sheets.is_empty() {
        return Err("the names of sheets".into());
    }
    for name in sheets {
        let file = |ending: &str| {
            let file = format!("{name}.{ending}");
            std::fs::read(&file).map_err(|error| format!("{file}: {error}"))
        };
        let text = |ending: &str| {
            String::from_utf8(file(ending)?).map_err(|error| format!("{name}.{ending}: {error}"))
        };
        let is_it = reads_back(&file("tree")?, &text("names")?, &text("rs")?);
        if !is_it.map_err(|error| format!("{name}: {error}"))? {
            eprintln!("{name}.rs is not the sheet {name}.tree");
            status = ExitCode::FAILURE;
        }
    }
    Ok(status)
}
