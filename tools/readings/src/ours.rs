//! Our writer and our reader: the one file that knows how they are asked.
//!
//! As programs, `crates/tokens/out/tokens` takes a tree file on standard input and prints
//! `ok` and the count, then a line with the codes and a line with the symbols, and
//! `crates/reading/out/reading` takes the context and code and symbol of each token as the numbers
//! of a tree file and prints `ok` and the count, then for each node its number and its six numbers;
//! both print `no` and the number on a refusal.
//! As functions they come from the static library of `answers`, with the feature
//! `library`.

use model::codes::{self, Token};
use model::sizes::NODE_CELLS;
use model::table::{self, NodeTable};
use model::verdict::Verdict;
use model::written::Written;
use std::io::{ErrorKind, Read, Write};
use std::path::PathBuf;
use std::process::{Command, Stdio};

/// In place of a reply: something was written that should have kept its contents,
/// or what was printed is no answer.
pub const SPOILT: u16 = 65_535;

/// What we write: the tokens, and how many pairs, where that is told; or the refusal.
#[derive(Debug)]
pub struct Answer {
    tokens: Result<Vec<Token>, u16>,
    pairs: Option<usize>,
}

impl Answer {
    /// Whether it is what must be written.
    pub fn is(&self, written: Result<&Written, u16>) -> bool {
        let pairs = written.map(|written| written.pairs.len()).ok();
        self.tokens == written.map(|written| written.tokens.clone())
            && (self.pairs.is_none() || self.pairs == pairs)
    }
}

/// How we are asked.
pub enum Ours {
    Absent,
    Programs,
    #[cfg(feature = "library")]
    Library(Box<library::Library>),
}

impl Ours {
    pub fn named(name: &str) -> Option<Ours> {
        match name {
            "absent" => Some(Ours::Absent),
            "programs" => Some(Ours::Programs),
            #[cfg(feature = "library")]
            "library" => Some(Ours::Library(Box::new(library::Library::new()))),
            _ => None,
        }
    }

    /// Whether an answer takes long.
    pub fn is_slow(&self) -> bool {
        matches!(self, Ours::Programs)
    }

    /// By how many tokens the lists are shorter of which each one is tried: a call of the
    /// library clears a table for the longest list, which takes longer than a short list.
    pub fn shorter(&self) -> usize {
        match self {
            Ours::Absent => 0,
            Ours::Programs => 3,
            #[cfg(feature = "library")]
            Ours::Library(_) => 1,
        }
    }

    /// Whether buffers of any length can be lent.
    pub fn is_lent(&self) -> bool {
        !matches!(self, Ours::Absent | Ours::Programs)
    }

    /// The tokens of a node table, or the refusal, with so many cells lent.
    #[allow(unused_variables)]
    pub fn write(&mut self, tree: &NodeTable, lent: usize) -> Option<Answer> {
        match self {
            Ours::Absent => None,
            Ours::Programs => {
                let tokens = printed_tokens(&run("tokens", &table::write(tree)));
                Some(Answer { tokens, pairs: None })
            }
            #[cfg(feature = "library")]
            Ours::Library(library) => Some(library.write(tree, lent)),
        }
    }

    /// The table of a list's reading in a context, or the refusal, with so many cells lent.
    pub fn read(&mut self, context: u16, tokens: &[Token], lent: usize) -> Option<Verdict> {
        match self {
            Ours::Absent => None,
            _ => self.read_cells(context, &codes::cells(tokens), lent),
        }
    }

    /// The same for any cells.
    #[allow(unused_variables)]
    pub fn read_cells(&mut self, context: u16, cells: &[u16], lent: usize) -> Option<Verdict> {
        match self {
            Ours::Absent => None,
            Ours::Programs => {
                let numbers = table::numbers([&context].into_iter().chain(cells));
                Some(printed_table(&run("reading", &numbers)))
            }
            #[cfg(feature = "library")]
            Ours::Library(library) => Some(library.read(context, cells, lent)),
        }
    }

    /// What the program `tokens` answers to any bytes.
    pub fn write_file(&mut self, file: &[u8]) -> Option<Result<Vec<Token>, u16>> {
        matches!(self, Ours::Programs).then(|| printed_tokens(&run("tokens", file)))
    }

    /// What the program `reading` answers to any bytes.
    pub fn read_file(&mut self, file: &[u8]) -> Option<Verdict> {
        matches!(self, Ours::Programs).then(|| printed_table(&run("reading", file)))
    }
}

/// What a program prints for a file on its standard input.
fn run(program: &str, file: &[u8]) -> String {
    let crates = PathBuf::from(env!("CARGO_MANIFEST_DIR")).join("../../crates");
    let path = crates.join(program).join("out").join(program);
    let mut child = Command::new(&path)
        .stdin(Stdio::piped())
        .stdout(Stdio::piped())
        .spawn()
        .unwrap_or_else(|error| panic!("{}: {error}", path.display()));
    let written = child.stdin.take().expect("its input").write_all(file);
    // Of a list that is too long a program reads no more than it needs.
    assert!(written.is_ok() || written.is_err_and(|error| error.kind() == ErrorKind::BrokenPipe));
    let mut printed = String::new();
    child.stdout.take().expect("its output").read_to_string(&mut printed).expect("it prints");
    let status = child.wait().expect("it ends");
    assert!(status.success(), "{status} for {file:?}");
    printed
}

/// The numbers behind `ok` and the count, line by line, or the number behind `no`.
fn answer(printed: &str) -> Result<(usize, Vec<Vec<u16>>), u16> {
    let mut lines = printed.lines().map(|line| line.split(' ').collect::<Vec<_>>());
    let number = |word: &str| word.parse::<u16>().map_err(|_| SPOILT);
    match lines.next().as_deref() {
        Some(["no", refusal]) if lines.next().is_none() => Err(number(refusal)?),
        Some(["ok", count]) => {
            let rows = lines.map(|line| line.into_iter().map(number).collect());
            Ok((number(count)?.into(), rows.collect::<Result<_, _>>()?))
        }
        _ => Err(SPOILT),
    }
}

fn printed_tokens(printed: &str) -> Result<Vec<Token>, u16> {
    let (count, lines) = answer(printed)?;
    match &lines[..] {
        [codes, symbols] if [codes.len(), symbols.len()] == [count, count] => {
            Ok(codes.iter().zip(symbols).map(|(&code, &symbol)| Token::new(code, symbol)).collect())
        }
        _ => Err(SPOILT),
    }
}

fn printed_table(printed: &str) -> Verdict {
    let (count, lines) = answer(printed)?;
    let numbered = lines
        .iter()
        .zip(1..)
        .all(|(line, number)| line.len() == 1 + NODE_CELLS && line[0] == number);
    if lines.len() != count || !numbered {
        return Err(SPOILT);
    }
    Ok(lines.iter().flat_map(|line| line[1..].iter().copied()).collect())
}

#[cfg(feature = "library")]
mod library {
    use super::{Answer, SPOILT};
    use model::codes::Token;
    use model::lent::Lent;
    use model::sizes::{MOST_NODES, NODE_CELLS, TOKEN_CELLS, TOKEN_CELLS_PER_NODE};
    use model::verdict::Verdict;
    use model::NodeTable;
    use tezhukor::{boundary, Refusal};

    /// A buffer that is lent again and again.
    pub struct Library(Lent);

    impl Library {
        pub fn new() -> Self {
            Library(Lent::new(TOKEN_CELLS_PER_NODE * (MOST_NODES + 1)))
        }

        pub fn write(&mut self, tree: &NodeTable, lent: usize) -> Answer {
            let NodeTable { context, count, cells } = tree;
            let reply = boundary::write(*context, *count, cells, self.0.lend(lent));
            let counted = boundary::counted(reply);
            let cells = self.taken(counted.map(|counted| counted.tokens), TOKEN_CELLS);
            Answer {
                tokens: cells.map(|cells| Token::of_cells(&cells)),
                pairs: counted.ok().map(|counted| counted.pairs.into()),
            }
        }

        pub fn read(&mut self, context: u16, tokens: &[u16], lent: usize) -> Verdict {
            let reply = boundary::read(context, tokens, self.0.lend(lent));
            self.taken(boundary::done(reply), NODE_CELLS)
        }

        /// Takes the answer out of the buffer, with so many cells a count.
        fn taken(&mut self, done: Result<u16, Refusal>, each: usize) -> Result<Vec<u16>, u16> {
            let Some(answer) = self.0.take(each * usize::from(done.unwrap_or(0))) else {
                *self = Library::new();
                return Err(SPOILT);
            };
            done.map(|_| answer).map_err(|refusal| refusal.number())
        }
    }
}
