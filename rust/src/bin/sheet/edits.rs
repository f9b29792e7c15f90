//! Edits of the sheet in a file.

use crate::answer::{words, Answer};
use crate::commands::{expression, load, names_text, utf8, write_names};
use crate::show::{self, coloured, parentheses};
use crate::words;
use model::verdict::longest_path;
use std::ffi::OsStr;
use tezhukor::forms::{BLOCK, CLOSURE, LINK, YIELD};
use tezhukor::sizes::MOST_NODES;
use tezhukor::text::{Names, Pair, Symbols, Text};
use tezhukor::{contexts, OpenSheet, Refusal, Sight, Tree};

/// The file with an expression in place of what stands at a node.
pub fn edit(
    file: &OsStr,
    node: &OsStr,
    text: &OsStr,
    names: Option<&OsStr>,
) -> Result<Answer, Answer> {
    let mut asked = Asked::new(file, node, text, names)?;
    let edited = asked.sheet.edit(asked.node, &asked.second);
    edited.map_err(|refusal| asked.refused(refusal))?;
    if let Some(file) = names.filter(|_| asked.has_new_names) {
        write_names(file, &asked.symbols)?;
    }
    Ok(Answer::done(asked.sheet.tree().to_file()))
}

/// Pairs that come are bold and green, those that go bold and red.
const COMES: &str = "1;32";
const GOES: &str = "1;31";

/// The text before and after an edit, and which pairs come and go.
pub fn preview(
    file: &OsStr,
    node: &OsStr,
    text: &OsStr,
    names: Option<&OsStr>,
) -> Result<Answer, Answer> {
    let edit = seen_by(file, node, text, names)?;
    Ok(Answer::done(seen(&edit.sight, show::is_coloured())))
}

/// What an edit would give, with the names of both texts.
pub struct Seen {
    pub tree: Tree,
    pub names: Names,
    pub sight: Sight,
}

/// Looks at an edit.
pub fn seen_by(
    file: &OsStr,
    node: &OsStr,
    text: &OsStr,
    names: Option<&OsStr>,
) -> Result<Seen, Answer> {
    let asked = Asked::new(file, node, text, names)?;
    let preview = asked.sheet.preview(asked.node, &asked.second);
    let preview = preview.map_err(|refusal| asked.refused(refusal))?;
    let sight = preview.sight(&asked.names);
    Ok(Seen { tree: preview.tree().clone(), sight, names: asked.names })
}

/// An edit as it is seen. Without colour a line below each text marks the pairs.
fn seen(sight: &Sight, colour: bool) -> String {
    let Sight { before, after, come, go } = sight;
    let mut lines = Vec::new();
    for (name, text, pairs, mark, in_colour) in
        [("before", before, go, '-', GOES), ("after ", after, come, '+', COMES)]
    {
        let places = parentheses(pairs);
        if colour {
            lines.push(format!("{name}  {}", coloured(text.as_str(), places, in_colour)));
            continue;
        }
        lines.push(format!("{name}  {text}"));
        if !places.is_empty() {
            lines.push(format!("        {}", marks(text.as_str(), &places, mark)));
        }
    }
    lines.extend(told_all(sight));
    lines.join("\n") + "\n"
}

/// The pairs that come and go, in words.
pub fn told_all(sight: &Sight) -> Vec<String> {
    let Sight { before, after, come, go } = sight;
    let goes = go.iter().map(|pair| told("goes", before, pair, "before"));
    let comes = come.iter().map(|pair| told("comes", after, pair, "after"));
    let all: Vec<String> = goes.chain(comes).collect();
    match all.is_empty() {
        true => vec!["no pair comes or goes".to_string()],
        false => all,
    }
}

/// Marks below the characters at those bytes of a text.
pub fn marks(text: &str, places: &[usize], mark: char) -> String {
    let is_marked = |at: usize| places.binary_search(&at).is_ok();
    let line: String =
        text.char_indices().map(|(at, _)| if is_marked(at) { mark } else { ' ' }).collect();
    line.trim_end().to_string()
}

/// A pair in words, with its columns.
fn told(what: &str, text: &Text, pair: &Pair, when: &str) -> String {
    let column = |at: usize| text.as_str()[..at].chars().count() + 1;
    let [open, close] = [pair.open, pair.close].map(column);
    let which = if pair.is_inner { "the inner pair of" } else { "the pair round" };
    let (node, own) = (pair.node, text.of(pair.node));
    format!("{what}: {which} node {node}, `{own}`, at columns {open} and {close} {when}")
}

/// What is asked for: a node of a sheet, and another tree for it.
struct Asked {
    sheet: OpenSheet,
    node: u16,
    second: Tree,
    symbols: Symbols,
    names: Names,
    has_new_names: bool,
}

impl Asked {
    fn new(
        file: &OsStr,
        node: &OsStr,
        text: &OsStr,
        names: Option<&OsStr>,
    ) -> Result<Asked, Answer> {
        let tree = load(file)?;
        let lines = names_text(names)?;
        let (node, text) = (utf8(node.as_encoded_bytes())?, utf8(text.as_encoded_bytes())?);
        let mut symbols = Symbols::of(&lines, &tree);
        let known = symbols.count();
        let second = expression(contexts::NONE, &text, &text, &mut symbols)?;
        let names = symbols.names()?;
        let has_new_names = symbols.count() > known;
        let shown = Text::new(&tree, &tree.rows(), &Names::new(&lines));
        let node = named(&node, &tree, &shown)?;
        Ok(Asked { sheet: tree.into(), node, second, symbols, names, has_new_names })
    }

    /// The refusal with the node and the reason. It is the library's; this only looks for
    /// what it speaks of.
    fn refused(&self, refusal: Refusal) -> Answer {
        let (tree, node) = (self.sheet.tree(), self.node);
        let reason = match refusal {
            Refusal::NamedNode => match tree.node(node) {
                Some(named) => format!(", a {}", words::form(named)),
                None => format!(" of {}", tree.count()),
            },
            Refusal::EditedTree => format!(", {}", broken(&tree, node, &self.second)),
            _ => String::new(),
        };
        Answer::refused(words(refusal, &format!(" at node {node}{reason}")))
    }
}

/// The node that a word names: by its number, or by the text of an expression that stands
/// once, without the pair round it or else with it.
fn named(word: &str, tree: &Tree, shown: &Text) -> Result<u16, Answer> {
    let refused = |reason: &str| Answer::refused(format!("{reason}: name a node by its number"));
    if let Ok(number) = word.parse() {
        return Ok(number);
    }
    let wanted = pieces(word);
    let is_expression = |number: &u16| tree.node(*number).is_some_and(|node| node.form <= YIELD);
    let spelled = |with_pair: bool| {
        let is_wanted = |number: &u16| match with_pair {
            false => pieces(shown.of(*number)) == wanted,
            true => pieces(&format!("({})", shown.of(*number))) == wanted,
        };
        (1..=tree.count()).filter(is_expression).filter(is_wanted).collect::<Vec<u16>>()
    };
    let found = match &spelled(false)[..] {
        [] => spelled(true),
        found => found.to_vec(),
    };
    match found[..] {
        [number] => Ok(number),
        [] => Err(refused(&format!("no operand of the sheet is `{word}`"))),
        _ => {
            let numbers: Vec<String> = found.iter().map(u16::to_string).collect();
            Err(refused(&format!("`{word}` stands at the nodes {}", numbers.join(", "))))
        }
    }
}

/// A text as words and signs, however it is spaced.
fn pieces(text: &str) -> Vec<&str> {
    let is_word = |c: char| c == '_' || c.is_alphanumeric();
    let (mut pieces, mut rest) = (Vec::new(), text.trim_start());
    while let Some(first) = rest.chars().next() {
        let length = match is_word(first) {
            true => rest.find(|c| !is_word(c)).unwrap_or(rest.len()),
            false => first.len_utf8(),
        };
        pieces.push(&rest[..length]);
        rest = rest[length..].trim_start();
    }
    pieces
}

/// Why the tree that an edit would give is none.
fn broken(tree: &Tree, node: u16, second: &Tree) -> String {
    let nodes: Vec<_> = (1..=tree.count()).filter_map(|number| tree.node(number)).collect();
    let owns = |owner: &tezhukor::Node| owner.first == node || owner.second == node;
    let root = second.node(1).unwrap_or_default();
    let is_bare_block = [root.form, root.attributes, root.detail] == [BLOCK, 0, 0];
    // Owners come before their operands: what stands below the node is known in one pass.
    let mut levels = vec![0; nodes.len() + 1];
    let mut is_below = vec![false; nodes.len() + 1];
    for (at, owner) in (1..).zip(&nodes) {
        is_below[at] |= at == usize::from(node);
        levels[at] += usize::from(owner.form != LINK);
        for operand in [owner.first, owner.second].map(usize::from) {
            (levels[operand], is_below[operand]) = (levels[at], is_below[at]);
        }
    }
    let stays = is_below[1..].iter().filter(|is_below| !**is_below).count();
    let count = stays + usize::from(second.count());
    match nodes.iter().position(owns) {
        _ if count > MOST_NODES => format!("which would give {count} nodes"),
        Some(at) if nodes[at].form == CLOSURE && nodes[at].detail == 1 && !is_bare_block => {
            format!("the body of node {}, a closure with a written output", at + 1)
        }
        _ => {
            let path = levels[usize::from(node)] - 1 + longest_path(second.cells());
            format!("which would give a path of {path} nodes")
        }
    }
}

#[cfg(test)]
mod tests {
    use super::*;

    #[test]
    fn texts_are_told_apart_by_words_and_signs() {
        assert_eq!(pieces(" a -(b as  T)"), ["a", "-", "(", "b", "as", "T", ")"]);
        assert_eq!(pieces("a-(b as T )"), pieces("a - (b as T)"));
        assert_ne!(pieces("basT"), pieces("b as T"));
        assert!(pieces(" ").is_empty());
    }
}
