//! An editor that holds a sheet open. Each line of standard input is an edit, a node's number
//! and an expression; it is shown, and made if the next line is `yes`.

use std::error::Error;
use std::io::{BufRead, Write};
use tezhukor::text::{lexer, Symbols};
use tezhukor::{contexts, OpenSheet, Tree};

/// The tree of an expression; new names get new symbols.
fn read(text: &str, symbols: &mut Symbols) -> Result<Tree, Box<dyn Error>> {
    let tokens = lexer::named(text, |word| symbols.symbol(word))?;
    Ok(Tree::read(contexts::NONE, &tokens)?)
}

/// The node and the expression of an edit.
fn asked(edit: &str, symbols: &mut Symbols) -> Result<(u16, Tree), Box<dyn Error>> {
    let (node, text) = edit.split_once(' ').ok_or("an edit is a node and an expression")?;
    Ok((node.parse()?, read(text, symbols)?))
}

/// Edits a sheet until the input ends. What is no edit changes nothing.
pub fn session(
    sheet: &str,
    input: impl BufRead,
    mut output: impl Write,
) -> Result<(), Box<dyn Error>> {
    let mut symbols = Symbols::default();
    let mut sheet = OpenSheet::from(read(sheet, &mut symbols)?);
    let mut input = input.lines();
    while let Some(edit) = input.next().transpose()? {
        let (node, second) = match asked(&edit, &mut symbols) {
            Ok(asked) => asked,
            Err(error) => {
                writeln!(output, "no: {error}")?;
                continue;
            }
        };
        match sheet.preview(node, &second) {
            Err(refusal) => writeln!(output, "no: {refusal}")?,
            Ok(preview) => {
                let sight = preview.sight(&symbols.names()?);
                let (come, go) = (sight.come.len(), sight.go.len());
                writeln!(output, "{}\n{}\n{come} come, {go} go", sight.before, sight.after)?;
                if input.next().transpose()?.as_deref() == Some("yes") {
                    sheet.edit(node, &second)?;
                }
            }
        }
    }
    writeln!(output, "{}", sheet.text(&symbols.names()?))?;
    Ok(())
}

fn main() -> Result<(), Box<dyn Error>> {
    let sheet = std::env::args().nth(1).ok_or("an expression to begin with")?;
    session(&sheet, std::io::stdin().lock(), std::io::stdout())
}
