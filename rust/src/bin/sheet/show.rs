//! Trees as text, their added pairs in colour.

use std::io::IsTerminal;
use tezhukor::text::{Names, Pair, Text, Unspelled};
use tezhukor::Tree;

/// Added pairs are bold and yellow.
const ADDED: &str = "1;33";

/// A tree as text, and where it is plain as Rust, which is the same text.
pub struct Shown {
    text: Text,
    rust: Result<String, Unspelled>,
}

impl Shown {
    /// The text, with the added pairs in colour or not.
    pub fn text(&self, colour: bool) -> String {
        let text = match &self.rust {
            Ok(rust) => rust,
            Err(_) => self.text.as_str(),
        };
        match colour {
            true => coloured(text, parentheses(self.text.pairs()), ADDED),
            false => text.to_string(),
        }
    }

    /// A node's own text.
    pub fn of(&self, number: u16) -> &str {
        self.text.of(number)
    }

    /// What is wrong with the names, if something is: then the text is not Rust.
    pub fn note(&self) -> String {
        match &self.rust {
            Err(unspelled @ Unspelled::Name { .. }) => format!("sheet: {unspelled}\n"),
            _ => String::new(),
        }
    }
}

/// Shows a tree with the names of its symbols.
pub fn shown(tree: &Tree, names: Names) -> Shown {
    Shown { text: Text::new(tree, &tree.rows(), &names), rust: tree.to_rust(&names) }
}

/// Whether what is printed may have colours.
pub fn is_coloured() -> bool {
    std::io::stdout().is_terminal() && std::env::var_os("NO_COLOR").is_none()
}

/// Where the parentheses of pairs stand.
pub fn parentheses<'a>(pairs: impl IntoIterator<Item = &'a Pair>) -> Vec<usize> {
    let mut places: Vec<usize> =
        pairs.into_iter().flat_map(|pair| [pair.open, pair.close]).collect();
    places.sort_unstable();
    places
}

/// A text with the characters at those bytes in a colour.
pub fn coloured(plain: &str, places: Vec<usize>, colour: &str) -> String {
    let (mut text, mut done) = (String::new(), 0);
    for at in places {
        text.push_str(&plain[done..at]);
        text.push_str(&format!("\x1b[{colour}m{}\x1b[0m", &plain[at..at + 1]));
        done = at + 1;
    }
    text + &plain[done..]
}

#[cfg(test)]
mod tests {
    use super::*;
    use model::generate::{Dice, Draft, Family, Order};
    use model::recorded::records;
    use model::{table, NodeTable};
    use tezhukor::codes::{tokens, CLOSE, MINUS, NAME, OPEN};
    use tezhukor::contexts;
    use tezhukor::text::lexer;

    #[test]
    fn added_pairs_are_coloured() {
        let list = tokens(&[NAME, MINUS, OPEN, NAME, MINUS, NAME, CLOSE]);
        let tree = Tree::read(contexts::NONE, &list).expect("a tree");
        let text = shown(&tree, Names::default()).text(true);
        assert_eq!(text, "a - \x1b[1;33m(\x1b[0mb - c\x1b[1;33m)\x1b[0m");
    }

    /// Each recorded plain tree: the text has the tokens that are written for it.
    #[test]
    fn text_is_the_tokens() {
        let mut trees = 0;
        for record in records("tokens") {
            let Ok(tree) = Tree::load(&record.bytes) else {
                continue;
            };
            let Ok(tokens) = tree.tokens() else {
                continue;
            };
            let text = shown(&tree, Names::default()).text(false);
            let read = lexer::tokens(&text).expect("tokens");
            let read: Vec<u16> = read.iter().map(|token| token.code).collect();
            let codes: Vec<u16> = tokens.iter().map(|token| token.code).collect();
            assert_eq!(read, codes, "{text}");
            trees += 1;
        }
        assert!(trees > 3_000, "{trees} trees");
    }

    /// A tree shows the same text however its nodes are numbered, and once it is saved;
    /// with names for its symbols, which stand where they stood, and without.
    #[test]
    fn numbering_changes_no_text() {
        let lines: String = (1..=u16::MAX).map(|symbol| format!("n{symbol}\n")).collect();
        let (names, mut others) = (Names::new(&lines), 0);
        for index in 0..600 {
            let dice = &mut Dice::new(41, index);
            let table = Family::Mixed.tree(42, index);
            let load = |table: &NodeTable| Tree::load(&table::write(table)).expect("a tree");
            let tree = load(&table);
            let text = |tree: &Tree, names: &Names| shown(tree, names.clone()).text(false);
            for names in [&names, &Names::default()] {
                let meant = text(&tree, names);
                assert_eq!(text(&tree.canonical(), names), meant);
                for _ in 0..4 {
                    let other = Draft::of(&table).number(table.context, Order::any(dice), dice);
                    others += u64::from(other != table);
                    assert_eq!(text(&load(&other), names), meant);
                }
            }
        }
        assert!(others > 2_000, "{others} other numberings");
    }
}
