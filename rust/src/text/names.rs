//! Names and literals: what the symbols of a tree stand for.

use crate::Tree;
use std::rc::Rc;

/// What is named.
#[derive(Copy, Clone, PartialEq, Eq, Debug)]
pub enum Kind {
    Name,
    Type,
    Literal,
    Member,
}

/// The lines of a names file, line n for symbol n. A symbol that has none, or an empty one,
/// has letters; a node without a symbol those that no symbol of the tree has, in order of
/// occurrence.
#[derive(Clone, Debug, Default)]
pub struct Names {
    lines: Rc<[String]>,
    /// The symbols of the tree, in order, without 0.
    symbols: Vec<u16>,
    /// The letters that were tried for nodes without a symbol.
    tried: u16,
}

impl Names {
    pub fn new(text: &str) -> Names {
        let clean = |line: &str| line.trim().chars().filter(|c| !c.is_control()).collect();
        Names { lines: text.lines().map(clean).collect(), ..Names::default() }
    }

    /// The names for one tree.
    pub fn of(self, tree: &Tree) -> Names {
        let nodes = (1..=tree.count()).filter_map(|number| tree.node(number));
        let mut symbols: Vec<u16> = nodes.map(|node| node.symbol).filter(|&n| n != 0).collect();
        symbols.sort_unstable();
        Names { symbols, tried: 0, ..self }
    }

    /// The name or literal of a symbol.
    pub fn named(&mut self, symbol: u16, kind: Kind) -> String {
        let Some(at) = usize::from(symbol).checked_sub(1) else {
            return letters(kind, self.unused());
        };
        match self.lines.get(at).filter(|line| !line.is_empty()) {
            Some(line) => line.clone(),
            None => letters(kind, symbol),
        }
    }

    /// The next symbol that the tree does not have.
    fn unused(&mut self) -> u16 {
        self.tried = self.tried.saturating_add(1);
        while self.symbols.binary_search(&self.tried).is_ok() {
            self.tried = self.tried.saturating_add(1);
        }
        self.tried
    }
}

/// How a symbol without a line is spelled.
fn letters(kind: Kind, symbol: u16) -> String {
    let first = match kind {
        Kind::Literal => return "1".to_string(),
        Kind::Member => return "0".to_string(),
        Kind::Name => b'a',
        Kind::Type => b'A',
    };
    let at = symbol - 1;
    let letter = char::from(first + (at % 26) as u8);
    match at / 26 {
        0 => letter.to_string(),
        round => format!("{letter}{round}"),
    }
}

#[cfg(test)]
mod tests {
    use super::*;

    #[test]
    fn symbols_without_a_line_have_letters() {
        // a + b, the one with symbol 2, the other without.
        let file = [0, 3, 5, 0, 0, 2, 3, 0, 26, 0, 0, 0, 0, 2, 26, 0, 0, 0, 0, 0];
        let tree = Tree::load(&file).expect("a tree");
        let mut names = Names::new("one\n\nthree\n").of(&tree);
        assert_eq!(names.named(1, Kind::Name), "one");
        assert_eq!(names.named(2, Kind::Name), "b");
        assert_eq!(names.named(3, Kind::Literal), "three");
        assert_eq!(names.named(29, Kind::Type), "C1");
        assert_eq!(names.named(4, Kind::Literal), "1");
        assert_eq!([(); 3].map(|()| names.named(0, Kind::Name)), ["a", "c", "d"]);
    }
}
