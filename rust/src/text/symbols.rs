//! The symbols that names and literals get.

use super::{Kind, Names};
use crate::{Node, Tree};
use model::forms::{FIELD, LIT, METHOD_CALL, PATH, TYPE_PATH};
use std::collections::HashMap;
use std::fmt;

/// Names and literals with their symbols, which grow in number: equal ones have equal symbols,
/// from 1 on.
///
/// ```
/// use tezhukor::build::{binary, lit, path, Context, Op};
/// use tezhukor::text::Symbols;
/// # fn main() -> Result<(), Box<dyn std::error::Error>> {
/// let mut symbols = Symbols::default();
/// let [depth, half] = ["depth", "0.5"].map(|name| symbols.symbol(name));
/// let tree = binary(Op::Mul, path(depth), lit(half)).tree(Context::None)?;
/// assert_eq!(tree.to_rust(&symbols.names()?)?, "depth * 0.5");
/// assert_eq!(symbols.symbol("depth"), depth);
/// # Ok(())
/// # }
/// ```
#[derive(Clone, Debug, Default)]
pub struct Symbols {
    symbols: HashMap<String, u16>,
    lines: Vec<String>,
    /// Symbols that no new name gets, in order.
    taken: Vec<u16>,
    is_full: bool,
}

/// There are more names than the 65,535 symbols.
#[derive(Copy, Clone, PartialEq, Eq, Hash, Debug)]
pub struct NoSymbolLeft;

impl fmt::Display for NoSymbolLeft {
    fn fmt(&self, f: &mut fmt::Formatter) -> fmt::Result {
        f.write_str("There are more names and literals than the 65,535 symbols.")
    }
}

impl std::error::Error for NoSymbolLeft {}

impl Symbols {
    /// Those of a names file and of a tree: a name means the symbol that is shown by it, and new
    /// names get symbols that neither has.
    pub fn of(names: &str, tree: &Tree) -> Symbols {
        let lines: Vec<String> = names.lines().map(str::to_string).collect();
        let mut shown = Names::new(names).of(tree);
        let mut symbols = HashMap::new();
        for symbol in 1..=u16::try_from(lines.len()).unwrap_or(u16::MAX) {
            if !lines[usize::from(symbol) - 1].trim().is_empty() {
                symbols.entry(shown.named(symbol, Kind::Name)).or_insert(symbol);
            }
        }
        let mut taken = Vec::new();
        for node in (1..=tree.count()).filter_map(|number| tree.node(number)) {
            if let Some(kind) = kind(node) {
                symbols.entry(shown.named(node.symbol, kind)).or_insert(node.symbol);
            }
            taken.push(node.symbol);
        }
        taken.sort_unstable();
        Symbols { symbols, lines, taken, is_full: false }
    }

    /// The symbol of a name or literal, a new one if it has none yet. Where none is left it is
    /// 0, and there are no [`names`](Symbols::names).
    pub fn symbol(&mut self, name: &str) -> u16 {
        let line = in_one_line(name);
        if let Some(&symbol) = self.symbols.get(&line) {
            return symbol;
        }
        let is_free = |symbol: &u16| self.taken.binary_search(symbol).is_err();
        let next = u16::try_from(self.lines.len() + 1).ok();
        let Some(symbol) = next.and_then(|next| (next..=u16::MAX).find(is_free)) else {
            self.is_full = true;
            return 0;
        };
        self.lines.resize(usize::from(symbol) - 1, String::new());
        self.lines.push(line.clone());
        self.symbols.insert(line, symbol);
        symbol
    }

    /// The names of the symbols.
    pub fn names(&self) -> Result<Names, NoSymbolLeft> {
        match self.is_full {
            true => Err(NoSymbolLeft),
            false => Ok(Names::new(&self.lines())),
        }
    }

    /// A names file: a line for each symbol.
    pub fn lines(&self) -> String {
        self.lines.iter().flat_map(|line| [line, "\n"]).collect()
    }

    /// How many lines there are.
    pub fn count(&self) -> usize {
        self.lines.len()
    }
}

/// A literal with a line break as one line that stands for the same: `\n` for the break, and
/// nothing for one behind a backslash and the blanks that follow.
fn in_one_line(literal: &str) -> String {
    let (mut line, mut rest) = (String::new(), literal.chars());
    while let Some(c) = rest.next() {
        match (c, rest.clone().next()) {
            ('\\', Some('\n' | '\r')) => rest = rest.as_str().trim_start().chars(),
            ('\\', Some(escaped)) => {
                line.extend([c, escaped]);
                rest.next();
            }
            ('\r', Some('\n')) => {}
            ('\n', _) => line.push_str("\\n"),
            ('\r', _) => line.push_str("\\r"),
            _ => line.push(c),
        }
    }
    line
}

/// What a node with a symbol names, where it is shown by letters without a line.
fn kind(node: Node) -> Option<Kind> {
    match (node.form, node.detail, node.symbol) {
        (_, _, 0) | (LIT, ..) | (FIELD, 1, _) => None,
        (PATH | FIELD | METHOD_CALL, ..) => Some(Kind::Name),
        (TYPE_PATH, ..) => Some(Kind::Type),
        _ => None,
    }
}

#[cfg(test)]
mod tests {
    use super::*;

    #[test]
    fn equal_names_have_equal_symbols() {
        let mut table = Symbols::default();
        let symbols = ["b", "a", "b", "1", "a"].map(|name| table.symbol(name));
        assert_eq!(symbols, [1, 2, 1, 3, 2]);
        assert_eq!(table.lines(), "b\na\n1\n");
    }

    #[test]
    fn literals_stand_in_one_line() {
        for (literal, line) in [
            ("\"a\nb\"", "\"a\\nb\""),
            ("\"a\r\nb\"", "\"a\\nb\""),
            ("\"a\\\n   b\"", "\"ab\""),
            ("\"a\\\r\n\n b\"", "\"ab\""),
            ("\"a\\\\\nb\"", "\"a\\\\\\nb\""),
            ("\"\\\"\"", "\"\\\"\""),
        ] {
            assert_eq!(in_one_line(literal), line);
        }
    }

    #[test]
    fn symbols_come_to_an_end() {
        let file = [0, 1, 26, 0, 0, 0, 0, 2];
        let mut symbols = Symbols::of("depth\n", &Tree::load(&file).expect("a tree"));
        for symbol in 3..=u16::MAX {
            assert_eq!(symbols.symbol(&format!("n{symbol}")), symbol);
        }
        assert!(symbols.names().is_ok());
        assert_eq!([symbols.symbol("depth"), symbols.symbol("n9")], [1, 9]);
        assert_eq!(symbols.symbol("more"), 0);
        assert_eq!(symbols.names().err(), Some(NoSymbolLeft));
    }

    #[test]
    fn names_are_those_shown() {
        // A sum of symbol 2, which has no line, and symbol 4, which is beyond the lines.
        let file = [0, 3, 5, 0, 0, 2, 3, 0, 26, 0, 0, 0, 0, 2, 26, 0, 0, 0, 0, 4];
        let tree = Tree::load(&file).expect("a tree");
        let mut table = Symbols::of("depth\n\n1.5\n", &tree);
        let names = ["depth", "b", "d", "1.5", "e", "f", "e"];
        assert_eq!(names.map(|name| table.symbol(name)), [1, 2, 4, 3, 5, 6, 5]);
        assert_eq!(table.lines(), "depth\n\n1.5\n\ne\nf\n");
    }
}
