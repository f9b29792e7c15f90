//! `sheet`: expressions, tree files and their pairs, for people.

mod answer;
mod blame;
mod braced;
mod commands;
mod count;
mod doubles;
mod draft;
mod edits;
mod kind;
mod locate;
mod many;
mod pack;
mod page;
mod prevents;
mod show;
mod why;
mod words;

use std::io::Write;
use std::process::ExitCode;

const USAGE: &str = "\
sheet: where a printed Rust expression needs parentheses

  sheet read [--condition] [--names OUT] [TEXT]
                                     an expression as text to a tree file on standard
                                     output; TEXT, or standard input without it; with
                                     --condition the condition of an `if` or a `while`
  sheet show [--names NAMES] [--count] FILE
                                     the tree as text, with the pairs that it needs;
                                     with --count how many they are
  sheet why [--names NAMES] FILE     for each added pair what it prevents: the text
                                     without it and how that reads; and who asks for it;
                                     and how many there are, and whether fewer do
  sheet page [--names NAMES] [--preview NODE TEXT] FILE
                                     a page for a browser, one file on standard output:
                                     the text with its pairs, for each what it prevents,
                                     and the tree; with --preview before and after that
                                     edit; for a refused file what is wrong
  sheet page --draft [--condition] [TEXT]
                                     the same of a draft, as `sheet draft` takes it: the
                                     pairs that stand whatever is chosen, and those that
                                     depend on it
  sheet rows FILE                    the row of each expression: node, pair,
                                     precedence, previous and next operator, flags
  sheet tokens FILE                  the tokens of a plain tree: codes, symbols, words
  sheet check FILE                   accepted, or what is wrong and at which node
  sheet canonical FILE               the one file of its context and tree, whatever
                                     numbers the nodes have, on standard output
  sheet compare FILE FILE            whether the first comes before the second, after
                                     it, or is equal: contexts, then number by number
  sheet edit [--names NAMES] FILE NODE TEXT
                                     the file with the expression TEXT in place of what
                                     stands at a node, on standard output
  sheet preview [--names NAMES] FILE NODE TEXT
                                     the text before and after that edit, and the pairs
                                     that come and go
  sheet draft [--condition] [TEXT]   an expression in which {+|-} or {+..%} stands for an
                                     operator that is not chosen yet: its pairs, those
                                     that depend on the choice marked, and for each of
                                     these a choice with it and one without
  sheet doubles FILE..               the files that hold the same tree in the same
                                     context, a line each, with an empty line between
                                     trees; a folder stands for the files in it
  sheet pack [--overwrite] FILE..    each tree file rearranged for the store, as
                                     FILE.columns; a folder stands for the files in it;
                                     - from standard input to standard output
  sheet unpack [--overwrite] FILE..  each rearranged file put back, byte for byte: of
                                     FILE.columns as FILE

FILE is a tree file, or a rearranged one if its name ends in .columns; - is a tree file
on standard input. `pack` and `unpack` write over another file only with --overwrite;
`read --names OUT` writes OUT anew. TEXT is a plain expression: names, literals, structs,
operators, casts, calls, fields, indexes, `?` and await; tree files hold other forms as
well. NODE is a number, or the text of an operand that stands once in what is shown; its
names, and those of TEXT, are the names shown, and `edit --names NAMES` adds a line to
NAMES for each other one. Tree files hold a symbol, a number, for each name and literal,
equal ones for equal names. A names file is the table of symbols, line n for symbol n:
`read --names OUT` writes it to OUT, and `--names NAMES` takes names from such a file.
Without a line names are called a, b, c .. (types A, B, C ..), literals 1, members 0;
closed forms have `..` inside, and a struct, read as `Name { .. }` or `Name {}`, keeps no
name.
The first example:

  sheet read 'offset - (station - start)' > curve.tree
  sheet show curve.tree
  sheet why curve.tree

Exit status: 0 done, 1 refused, 2 wrong usage or a file that cannot be read or written.
";

fn main() -> ExitCode {
    let arguments: Vec<_> = std::env::args_os().skip(1).collect();
    let answer = commands::run(&arguments).unwrap_or_else(|answer| answer);
    let mut status = answer.status;
    if !put(std::io::stdout(), &answer.output) && status == 0 {
        status = 2;
    }
    put(std::io::stderr(), answer.message.as_bytes());
    ExitCode::from(status)
}

/// Writes all bytes, or says that they cannot be written.
fn put(mut to: impl Write, bytes: &[u8]) -> bool {
    to.write_all(bytes).and_then(|()| to.flush()).is_ok()
}
