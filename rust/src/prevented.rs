//! What a pair prevents: the text without it, and how that reads.

use crate::text::{infixes, lexer, words, Names, Pair, Spelled, Text};
use crate::{Node, Refusal, Row, Tree};
use model::codes::{has_symbol, Token};
use model::forms::{INDEX, LINK, PAREN, YIELD};
use std::collections::HashSet;

/// A pair that was added, and what stands there without it.
#[derive(Clone, PartialEq, Eq, Debug)]
pub struct Prevented {
    /// The expression that the pair stands round.
    pub node: u16,
    /// The text without the pair, and with all others.
    pub text: String,
    /// Its tokens: those of the tree without the pair, but that `>>`, `>=` and `>>=` are more
    /// than one where their `>` now closes type arguments.
    pub tokens: Vec<Token>,
    pub reading: Reading,
}

/// What tokens without a pair are, by the proved reader: never the tree that has the pair.
#[derive(Clone, PartialEq, Eq, Debug)]
pub enum Reading {
    /// Nothing: the grammar gives them no reading.
    None,
    /// A tree with more levels, or more nodes, than a tree may have.
    TooLarge,
    /// Another tree.
    Other {
        tree: Tree,
        /// It as text, with a pair round each expression whose tokens are no expression of
        /// the first tree; without these pairs if they would be more levels than a tree may
        /// have.
        text: String,
        /// How many such expressions there are. Without any the trees differ in a form alone:
        /// a field that is called is a method without its pair.
        grouped: usize,
    },
}

impl Tree {
    /// What each added pair of a plain tree in context 0 or 3 prevents, by where they open;
    /// for any other tree [`Refusal::NotPlain`].
    ///
    /// ```
    /// use tezhukor::build::{binary, path, Context, Op};
    /// use tezhukor::text::Names;
    /// use tezhukor::Reading;
    /// # fn main() -> Result<(), Box<dyn std::error::Error>> {
    /// let [offset, station, start] = [1, 2, 3].map(path);
    /// let distance = binary(Op::Sub, station, start);
    /// let tree = binary(Op::Sub, offset, distance).tree(Context::None)?;
    /// let prevented = tree.prevented(&Names::new("offset\nstation\nstart"))?.remove(0);
    /// assert_eq!(prevented.node, 3);
    /// assert_eq!(prevented.text, "offset - station - start");
    /// let Reading::Other { text, .. } = prevented.reading else { panic!("another tree") };
    /// assert_eq!(text, "(offset - station) - start");
    /// # Ok(())
    /// # }
    /// ```
    pub fn prevented(&self, names: &Names) -> Result<Vec<Prevented>, Refusal> {
        let written = Written::new(self, names)?;
        let text = Text::new(self, &self.rows(), names);
        text.pairs().iter().map(|pair| written.without(pair)).collect()
    }
}

/// A tree's tokens, each that may have a symbol with that of its place, so that what is read
/// of them says which token a node comes from.
struct Written {
    context: u16,
    tokens: Vec<Token>,
    words: Vec<String>,
    infixes: Vec<bool>,
    spelled: Spelled,
    placed: Vec<Token>,
    /// The words by the symbols of places.
    names: Names,
    /// Over which tokens the tree has an expression.
    stretches: HashSet<Stretch>,
}

/// The tokens of an expression, by how many characters that are no blanks stand before its
/// beginning and its end in the text without any grouping parentheses.
type Stretch = [usize; 2];

impl Written {
    fn new(tree: &Tree, names: &Names) -> Result<Written, Refusal> {
        let (context, tokens) = (tree.context(), tree.tokens()?);
        let words = words(&tokens, names.clone().of(tree));
        let codes = codes(&tokens);
        let infixes = infixes(&codes);
        let spelled = Spelled::new(&codes, &words, &infixes);
        let by_place = |(token, place): (&Token, u16)| match has_symbol(token.code) {
            true => Token::new(token.code, place),
            false => *token,
        };
        let placed: Vec<Token> = tokens.iter().zip(1..).map(by_place).collect();
        let names = Names::new(&words.join("\n"));
        let bare = Tree::read(context, &placed)?;
        let stretches = stretches(&bare, &names).into_iter().map(|(_, stretch)| stretch).collect();
        Ok(Written { context, tokens, words, infixes, spelled, placed, names, stretches })
    }

    fn without(&self, pair: &Pair) -> Result<Prevented, Refusal> {
        let place = |at: usize| self.spelled.places.iter().position(|place| place.start == at);
        let left_out = [pair.open, pair.close].map(place);
        let is_kept = |at: &usize| !left_out.contains(&Some(*at));
        let kept: Vec<usize> = (0..self.tokens.len()).filter(is_kept).collect();
        let placed: Vec<Token> = kept.iter().map(|&at| self.placed[at]).collect();
        let words: Vec<String> = kept.iter().map(|&at| self.words[at].clone()).collect();
        let infixes: Vec<bool> = kept.iter().map(|&at| self.infixes[at]).collect();
        let text = Spelled::new(&codes(&placed), &words, &infixes).text;
        let placed = lexed(&text, &placed).unwrap_or(placed);
        let reading = match Tree::read(self.context, &placed) {
            Ok(tree) => self.other(&tree)?,
            Err(Refusal::NoReading) => Reading::None,
            Err(Refusal::ReadingTooLarge) => Reading::TooLarge,
            Err(refusal) => return Err(refusal),
        };
        let named = |token: &Token| Token::new(token.code, self.symbol(token.symbol));
        let tokens = placed.iter().map(named).collect();
        Ok(Prevented { node: pair.node, text, tokens, reading })
    }

    /// The symbol of the token at a place, 0 for none.
    fn symbol(&self, place: u16) -> u16 {
        usize::from(place).checked_sub(1).map_or(0, |at| self.tokens[at].symbol)
    }

    /// Another tree, whose symbols are places.
    fn other(&self, placed: &Tree) -> Result<Reading, Refusal> {
        let all = stretches(placed, &self.names).into_iter();
        let others = all.filter(|(_, stretch)| !self.stretches.contains(stretch));
        let numbers: Vec<u16> = others.map(|(number, _)| number).collect();
        let groups: Vec<u16> = numbers.into_iter().filter(|&n| shows_groups(placed, n)).collect();
        // With its groups it may have more levels than a tree may have; then they are left out.
        let grouped = in_groups(placed, &groups).unwrap_or_else(|_| placed.clone());
        let text = Text::new(&grouped, &grouped.rows(), &self.names).to_string();
        let named = nodes(placed).map(|node| Node { symbol: self.symbol(node.symbol), ..node });
        let tree = Tree::new(self.context, &named.collect::<Vec<_>>())?;
        Ok(Reading::Other { tree, text, grouped: groups.len() })
    }
}

fn codes(tokens: &[Token]) -> Vec<u16> {
    tokens.iter().map(|token| token.code).collect()
}

/// The tokens that a text is lexed to, with the symbols of those that it was spelled of; none
/// if the names are not theirs.
fn lexed(text: &str, spelled: &[Token]) -> Option<Vec<Token>> {
    let mut named = spelled.iter().filter(|token| has_symbol(token.code));
    let lexed = lexer::tokens(text).ok()?.into_iter().map(|token| match has_symbol(token.code) {
        true => named.next().filter(|named| named.code == token.code).copied(),
        false => Some(token.code.into()),
    });
    let lexed = lexed.collect::<Option<Vec<Token>>>()?;
    named.next().is_none().then_some(lexed)
}

fn nodes(tree: &Tree) -> impl Iterator<Item = Node> + '_ {
    (1..=tree.count()).filter_map(|number| tree.node(number))
}

/// Over which tokens a tree has which expression.
fn stretches(tree: &Tree, names: &Names) -> Vec<(u16, Stretch)> {
    let bare = Text::new(tree, &vec![Row::default(); tree.count().into()], names);
    let mut before = vec![0; bare.as_str().len() + 1];
    for (at, byte) in bare.as_str().bytes().enumerate() {
        before[at + 1] = before[at] + usize::from(byte != b' ');
    }
    let expressions = (1..).zip(nodes(tree)).filter(|(_, node)| node.form <= YIELD);
    let stretch = |number| {
        let span = bare.span(number);
        [before[span.start], before[span.end]]
    };
    expressions.map(|(number, _)| (number, stretch(number))).collect()
}

/// Whether a pair round an expression shows something: not round a name, nor where brackets
/// or commas stand round it already.
fn shows_groups(tree: &Tree, number: u16) -> bool {
    let is_leaf = tree.node(number).is_some_and(|node| node.first == 0);
    let stands_apart = |owner: Node| match owner.form {
        LINK => owner.first == number,
        INDEX => owner.second == number,
        _ => false,
    };
    number != 1 && !is_leaf && !nodes(tree).any(stands_apart)
}

/// A tree whose nodes are numbered from the root on, with some of its expressions in
/// parentheses, by number.
fn in_groups(tree: &Tree, groups: &[u16]) -> Result<Tree, Refusal> {
    // A group takes the number of what stands in it, which gets the next one.
    let moved = |number: u16| number + groups.partition_point(|&group| group < number) as u16;
    let mut grouped = Vec::new();
    for (number, node) in (1..).zip(nodes(tree)) {
        if groups.binary_search(&number).is_ok() {
            grouped.push(Node { form: PAREN, first: moved(number) + 1, ..Node::default() });
        }
        grouped.push(Node { first: moved(node.first), second: moved(node.second), ..node });
    }
    Tree::new(tree.context(), &grouped)
}
