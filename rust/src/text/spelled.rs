//! Plain tokens as text that is lexed to the same tokens.

use super::open::Open;
use super::{lexer, Kind, Names};
use crate::Tree;
use model::codes::*;
use std::fmt;
use std::ops::Range;

/// The signs of Rust that begin with another sign, by their first two characters; and `--`,
/// which is none there but is in other languages.
const SIGNS: [&str; 24] = [
    "&&", "||", "<<", ">>", "+=", "-=", "*=", "/=", "%=", "^=", "&=", "|=", "==", "!=", ">=", "<=",
    "..", "::", "->", "<-", "=>", "//", "/*", "--",
];

/// Whether the end of one text and the beginning of another would be read as one sign or
/// one word.
pub fn merges(before: &str, after: &str) -> bool {
    let (Some(last), Some(first)) = (before.chars().next_back(), after.chars().next()) else {
        return false;
    };
    let is_sign = |sign: &&str| sign.chars().eq([last, first]);
    let is_word = [last, first].iter().all(|&c| c == '_' || c.is_alphanumeric());
    is_word || SIGNS.iter().any(is_sign)
}

/// Whether a literal is a number, of which a dot behind it would become a part.
pub fn is_number(literal: &str) -> bool {
    literal.starts_with(|c: char| c.is_ascii_digit())
}

/// How each token of a tree is spelled, with the names for that tree.
pub fn words(tokens: &[Token], mut names: Names) -> Vec<String> {
    let mut open = Open::default();
    let word = tokens.iter().map(|&Token { code, symbol }| {
        let word = match code {
            NAME if open.wants_type() => names.named(symbol, Kind::Type),
            NAME => names.named(symbol, Kind::Name),
            LITERAL => names.named(symbol, Kind::Literal),
            MEMBER => names.named(symbol, Kind::Member),
            STRUCT => "S { .. }".to_string(),
            _ => SPELLED.get(usize::from(code)).copied().unwrap_or("?").to_string(),
        };
        open.push(code);
        word
    });
    word.collect()
}

/// A token list as text, in one line, and where each token stands.
#[derive(Clone, PartialEq, Eq, Debug, Default)]
pub struct Spelled {
    pub text: String,
    pub places: Vec<Range<usize>>,
}

/// Which tokens stand between two operands, or between an operand and a type.
pub fn infixes(codes: &[u16]) -> Vec<bool> {
    let mut open = Open::default();
    let is_infix = codes.iter().map(|&code| {
        let is_infix = open.is_infix(code);
        open.push(code);
        is_infix
    });
    is_infix.collect()
}

impl Spelled {
    /// Tokens with how each is spelled: blanks round those that stand between two operands,
    /// behind commas and behind prefixes that end in a word, and wherever two tokens would be
    /// one.
    pub fn new(codes: &[u16], words: &[String], infixes: &[bool]) -> Spelled {
        let mut spelled = Spelled::default();
        for (at, (&code, word)) in codes.iter().zip(words).enumerate() {
            let has_blank_behind = |before: usize| {
                infixes[before] || matches!(codes[before], COMMA | AND_MUT | STAR_CONST | STAR_MUT)
            };
            let is_apart = infixes[at]
                || at.checked_sub(1).is_some_and(has_blank_behind)
                || code == DOT && is_in_number(codes, words, at)
                || merges(&spelled.text, word);
            if is_apart && at > 0 {
                spelled.text.push(' ');
            }
            let start = spelled.text.len();
            spelled.text.push_str(word);
            spelled.places.push(start..spelled.text.len());
        }
        spelled
    }

    /// The first token that is lexed otherwise, or does not end where it should.
    fn first_otherwise(&self, codes: &[u16]) -> Option<usize> {
        let lexed = match lexer::tokens(&self.text) {
            Ok(lexed) => lexed,
            Err(error) => return self.places.iter().position(|place| error.at < place.end),
        };
        let meant = codes.iter().zip(&self.places);
        let meant = meant.map(|(&code, place)| (code, place.clone()));
        let read: Vec<_> = lexed.iter().map(|token| (token.code, token.at..token.end)).collect();
        let differs = |(at, token): (usize, (u16, Range<usize>))| {
            (read.get(at) != Some(&token)).then_some(at)
        };
        meant.enumerate().find_map(differs)
    }
}

/// Whether the dot at a place would be part of the number before it.
fn is_in_number(codes: &[u16], words: &[String], at: usize) -> bool {
    let Some(before) = at.checked_sub(1) else {
        return false;
    };
    match codes[before] {
        LITERAL => is_number(&words[before]),
        MEMBER => codes.get(at + 1) == Some(&MEMBER),
        _ => false,
    }
}

/// Why a tree has no text that is lexed to its tokens.
#[derive(Clone, PartialEq, Eq, Hash, Debug)]
pub enum Unspelled {
    /// It has no tokens: [`Refusal::NotPlain`](crate::Refusal::NotPlain).
    NotPlain,
    /// What stands for a symbol is not one name, literal or number of a member, as its node
    /// has it.
    Name { symbol: u16, line: String },
}

impl fmt::Display for Unspelled {
    fn fmt(&self, f: &mut fmt::Formatter) -> fmt::Result {
        match self {
            Unspelled::NotPlain => crate::Refusal::NotPlain.fmt(f),
            Unspelled::Name { symbol, line } => {
                write!(f, "The line of symbol {symbol}, `{line}`, is not the one token that stands for it.")
            }
        }
    }
}

impl std::error::Error for Unspelled {}

impl Tree {
    /// A plain tree in context 0 or 3 as Rust, in one line: its [tokens](Tree::tokens), pairs
    /// and all, each spelled by the name of its symbol, with blanks so that they are lexed to
    /// the same tokens. A struct, of which a tree holds nothing, is `S { .. }`.
    ///
    /// ```
    /// use tezhukor::build::{lit, path, reference, unary, Context, Mutability, UnaryOp};
    /// use tezhukor::text::{Names, Unspelled};
    /// # fn main() -> Result<(), Box<dyn std::error::Error>> {
    /// let names = Names::new("depth\n2\n0\nstation - start");
    /// let negative = |operand| unary(UnaryOp::Neg, operand);
    /// let tree = negative(negative(path(1))).member(3).member(3).tree(Context::None)?;
    /// assert_eq!(tree.to_rust(&names)?, "(- -depth).0 .0");
    /// // What is no name is not put where a name stands.
    /// let tree = negative(path(4)).tree(Context::None)?;
    /// let line = "station - start".to_string();
    /// assert_eq!(tree.to_rust(&names), Err(Unspelled::Name { symbol: 4, line }));
    /// # Ok(())
    /// # }
    /// ```
    pub fn to_rust(&self, names: &Names) -> Result<String, Unspelled> {
        let tokens = self.tokens().map_err(|_| Unspelled::NotPlain)?;
        let codes: Vec<u16> = tokens.iter().map(|token| token.code).collect();
        let words = words(&tokens, names.clone().of(self));
        let spelled = Spelled::new(&codes, &words, &infixes(&codes));
        match spelled.first_otherwise(&codes) {
            None => Ok(spelled.text),
            Some(at) => Err(Unspelled::Name { symbol: tokens[at].symbol, line: words[at].clone() }),
        }
    }
}
