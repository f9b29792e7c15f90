//! Text to plain tokens.

use super::open::{Next, Open};
use model::codes::*;
use std::fmt;

/// A token and the bytes of the text that it stands for.
#[derive(Copy, Clone, PartialEq, Eq, Debug)]
pub struct Lexed {
    pub code: u16,
    pub at: usize,
    pub end: usize,
}

/// What is no token, and where.
#[derive(Debug)]
pub struct Error {
    pub at: usize,
    pub message: String,
}

impl fmt::Display for Error {
    fn fmt(&self, f: &mut fmt::Formatter) -> fmt::Result {
        write!(f, "{} (byte {})", self.message, self.at)
    }
}

impl std::error::Error for Error {}

/// Words of Rust that are no names.
const KEYWORDS: [&str; 45] = [
    "abstract", "async", "await", "become", "box", "break", "const", "continue", "do", "dyn",
    "else", "enum", "extern", "final", "fn", "for", "if", "impl", "in", "let", "loop", "macro",
    "match", "mod", "move", "mut", "override", "priv", "pub", "ref", "return", "static", "struct",
    "trait", "try", "type", "typeof", "unsafe", "unsized", "use", "virtual", "where", "while",
    "yield", "as",
];

/// The tokens of a text.
///
/// ```
/// use tezhukor::codes::{CLOSE, DOT, NAME, OPEN};
/// let codes = |text| tezhukor::text::lexer::tokens(text).map(|tokens| {
///     tokens.iter().map(|token| token.code).collect::<Vec<_>>()
/// });
/// assert_eq!(codes("ring.advance()").ok(), Some(vec![NAME, DOT, NAME, OPEN, CLOSE]));
/// assert_eq!(codes("ring # 1").unwrap_err().at, 5);
/// ```
pub fn tokens(text: &str) -> Result<Vec<Lexed>, Error> {
    let mut lexer = Lexer { text, at: 0, open: Open::default(), tokens: Vec::new() };
    while lexer.skip_blank() {
        lexer.token()?;
    }
    Ok(lexer.tokens)
}

/// The tokens of a text, with the symbols that a function has for its names, literals and
/// members.
///
/// ```
/// use tezhukor::{contexts, text::lexer, Tree};
/// # fn main() -> Result<(), Box<dyn std::error::Error>> {
/// let lines = ["offset", "station", "start"];
/// let symbol = |word: &str| (1..).zip(lines).find(|(_, line)| *line == word).map_or(0, |at| at.0);
/// let tokens = lexer::named("offset - (station - start)", symbol)?;
/// assert_eq!(Tree::read(contexts::NONE, &tokens)?.node(5).map(|node| node.symbol), Some(3));
/// # Ok(())
/// # }
/// ```
pub fn named(text: &str, symbol: impl FnMut(&str) -> u16) -> Result<Vec<Token>, Error> {
    Ok(with_symbols(text, &tokens(text)?, symbol))
}

/// The same of tokens that are there.
pub fn with_symbols(
    text: &str,
    tokens: &[Lexed],
    mut symbol: impl FnMut(&str) -> u16,
) -> Vec<Token> {
    let named = tokens.iter().map(|&Lexed { code, at, end }| match has_symbol(code) {
        true => Token::new(code, symbol(&text[at..end])),
        false => code.into(),
    });
    named.collect()
}

struct Lexer<'a> {
    text: &'a str,
    at: usize,
    open: Open,
    tokens: Vec<Lexed>,
}

impl<'a> Lexer<'a> {
    fn rest(&self) -> &'a str {
        &self.text[self.at..]
    }

    fn first(&self) -> Option<char> {
        self.rest().chars().next()
    }

    /// Goes over blanks. Whether something follows.
    fn skip_blank(&mut self) -> bool {
        self.at = self.text.len() - self.rest().trim_start().len();
        self.at < self.text.len()
    }

    fn put(&mut self, code: u16, length: usize) {
        let (at, end) = (self.at, self.at + length);
        self.tokens.push(Lexed { code, at, end });
        self.open.push(code);
        self.at = end;
    }

    fn error<T>(&self, message: impl Into<String>) -> Result<T, Error> {
        Err(Error { at: self.at, message: message.into() })
    }

    fn token(&mut self) -> Result<(), Error> {
        match self.first() {
            Some('0'..='9') => self.number(),
            Some('"' | '\'') => return self.quoted(),
            Some(c) if is_word(c) => return self.word(),
            _ => return self.sign(),
        }
        Ok(())
    }

    /// A number, or behind a dot the number of a member.
    fn number(&mut self) {
        match self.open.next {
            Next::Member => self.put(MEMBER, length_of(self.rest(), |c| c.is_ascii_digit())),
            _ => self.put(LITERAL, number_length(self.rest())),
        }
    }

    /// A string or a character.
    fn quoted(&mut self) -> Result<(), Error> {
        let mut inside = self.rest().char_indices();
        let quote = inside.next().map(|(_, c)| c);
        while let Some((at, c)) = inside.next() {
            if Some(c) == quote {
                self.put(LITERAL, at + 1);
                return Ok(());
            }
            if c == '\\' {
                inside.next();
            }
        }
        self.error("this quote is not closed")
    }

    /// A name, a word that is a token of its own, a path, or a struct.
    fn word(&mut self) -> Result<(), Error> {
        let rest = self.rest();
        let length = length_of(rest, is_word);
        match (&rest[..length], self.open.next) {
            ("await", Next::Member) => self.put(AWAIT, length),
            ("as", _) => self.put(AS, length),
            ("_", _) => self.put(UNDERSCORE, length),
            ("true" | "false", _) => self.put(LITERAL, length),
            (word, _) if KEYWORDS.contains(&word) => {
                return self
                    .error(format!("`{word}` is no name, and no plain form begins with it"));
            }
            (_, Next::Member) => self.put(NAME, length),
            (_, Next::Operand) => return self.path_or_struct(path_length(rest)),
            _ => self.put(NAME, path_length(rest)),
        }
        Ok(())
    }

    /// A path of so many bytes where an operand may stand, or with braces behind it a
    /// struct. What stands in these would be a tree of its own, so it is `..` or nothing.
    fn path_or_struct(&mut self, path: usize) -> Result<(), Error> {
        let rest = self.rest();
        let Some(inside) = rest[path..].trim_start().strip_prefix('{') else {
            self.put(NAME, path);
            return Ok(());
        };
        let inside = inside.trim_start();
        let behind = inside.strip_prefix("..").unwrap_or(inside).trim_start().strip_prefix('}');
        match behind {
            Some(behind) => self.put(STRUCT, rest.len() - behind.len()),
            None => {
                self.at = self.text.len() - inside.len();
                return self.error("the braces of a struct hold `..` or nothing here");
            }
        }
        Ok(())
    }

    /// An operator, a bracket or another sign.
    fn sign(&mut self) -> Result<(), Error> {
        let rest = self.rest();
        if rest.starts_with("//") || rest.starts_with("/*") {
            return self.error("comments are not read");
        }
        if self.open.in_type_arguments() && rest.starts_with('>') {
            self.put(GREATER, 1);
            return Ok(());
        }
        if self.open.wants_prefix() {
            if let Some((code, length)) = prefix(rest, self.open.next) {
                self.put(code, length);
                return Ok(());
            }
        }
        match sign(rest) {
            Some((code, length)) => self.put(code, length),
            None => return self.error("this is no token of a plain expression"),
        }
        Ok(())
    }
}

fn is_word(c: char) -> bool {
    c == '_' || c.is_alphanumeric()
}

/// How many bytes at the start are such characters.
fn length_of(text: &str, is: impl Fn(char) -> bool) -> usize {
    text.find(|c| !is(c)).unwrap_or(text.len())
}

/// The sign with the longest spelling at the start.
fn sign(text: &str) -> Option<(u16, usize)> {
    let is_sign = |word: &str| !word.starts_with(char::is_alphabetic) && word != "_";
    (0..)
        .zip(SPELLED)
        .filter(|(code, word)| !matches!(*code, AND_MUT | STAR_CONST | STAR_MUT) && is_sign(word))
        .filter(|(_, word)| text.starts_with(word))
        .max_by_key(|(_, word)| word.len())
        .map(|(code, word)| (code, word.len()))
}

/// A prefix of an operand or a type: a sign of one character, perhaps with a word.
fn prefix(text: &str, next: Next) -> Option<(u16, usize)> {
    let with = |word: &str| {
        let rest = text[1..].trim_start();
        let behind = rest.strip_prefix(word)?;
        (!behind.starts_with(is_word)).then_some(text.len() - behind.len())
    };
    match (text.chars().next()?, next) {
        ('&', _) => Some(with("mut").map_or((AND, 1), |length| (AND_MUT, length))),
        ('!', _) => Some((NOT, 1)),
        ('*', Next::Type) => with("const")
            .map(|length| (STAR_CONST, length))
            .or(with("mut").map(|length| (STAR_MUT, length))),
        ('*', _) => Some((STAR, 1)),
        ('-', _) => Some((MINUS, 1)),
        _ => None,
    }
}

/// A path: names with `::` between them.
fn path_length(text: &str) -> usize {
    let mut length = length_of(text, is_word);
    while let Some(rest) = text[length..].strip_prefix("::") {
        match length_of(rest, is_word) {
            0 => break,
            more => length += 2 + more,
        }
    }
    length
}

/// A number, with its fraction, exponent and suffix.
fn number_length(text: &str) -> usize {
    let mut length = length_of(text, is_word);
    if let Some(rest) = text[length..].strip_prefix('.') {
        let is_fraction = !rest.starts_with(|c: char| c == '.' || c == '_' || c.is_alphabetic());
        if is_fraction {
            length += 1 + length_of(rest, is_word);
        }
    }
    let is_decimal = !text.starts_with("0x");
    if is_decimal && text[..length].ends_with(['e', 'E']) && text[length..].starts_with(['+', '-'])
    {
        match length_of(&text[length + 1..], is_word) {
            0 => {}
            more => length += 1 + more,
        }
    }
    length
}

#[cfg(test)]
mod tests {
    use super::*;

    fn codes(text: &str) -> Vec<u16> {
        tokens(text).expect("tokens").iter().map(|token| token.code).collect()
    }

    #[test]
    fn signs() {
        assert_eq!(codes("a&&b"), [NAME, AND_AND, NAME]);
        assert_eq!(codes("&&a"), [AND, AND, NAME]);
        assert_eq!(codes("& & mut a"), [AND, AND_MUT, NAME]);
        assert_eq!(codes("a && &mutable"), [NAME, AND_AND, AND, NAME]);
        assert_eq!(codes("a<<=b"), [NAME, 26, NAME]);
        assert_eq!(codes("!-*a"), [NOT, MINUS, STAR, NAME]);
        assert_eq!(codes("a!=!b"), [NAME, 15, NOT, NAME]);
        assert_eq!(codes("a*=*b"), [NAME, 20, STAR, NAME]);
    }

    #[test]
    fn types() {
        assert_eq!(codes("a as A<B<C>>"), [32, 31, 32, 13, 32, 13, 32, 17, 17]);
        assert_eq!(codes("a as A<B>>=b"), [32, 31, 32, 13, 32, 17, 16, 32]);
        assert_eq!(codes("a as *const *mut &&mut _"), [32, 31, 41, 42, 8, 30, 43]);
        assert_eq!(codes("a as ! * b"), [32, 31, 29, 2, 32]);
        assert_eq!(codes("a as &T >> b"), [32, 31, 8, 32, 11, 32]);
        assert_eq!(codes("a as A<B<C,>,>"), [32, 31, 32, 13, 32, 13, 32, 39, 17, 39, 17]);
        assert_eq!(codes("f(a,)&&b"), [32, 35, 32, 39, 36, 5, 32]);
    }

    #[test]
    fn structs() {
        for text in ["Limit { .. }", "Limit {}", "Limit { }", "a::Limit{..}", "Limit\n{\n..\n}"] {
            assert_eq!(codes(text), [STRUCT], "{text}");
            assert_eq!(tokens(text).expect("a token")[0].end, text.len());
        }
        assert_eq!(codes("x == (Limit { .. }).f"), [32, 12, 35, 46, 36, 34, 32]);
        assert_eq!(codes("-a{}[b{},]"), [1, 46, 37, 46, 39, 38]);
        // Behind an operand, a type or a dot no struct can stand, nor without a name.
        for text in ["x as T {}", "a.f {}", "f() {}", "{}", "1 {}", "a b {}"] {
            assert!(tokens(text).is_err(), "{text}");
        }
        // What else stands in the braces is told at its place.
        for (text, at) in [("S { a }", 4), ("S { .. a }", 4), ("S {", 3), ("S { a: 1, .. }", 4)] {
            assert_eq!(tokens(text).expect_err("no tokens").at, at, "{text}");
        }
    }

    #[test]
    fn words() {
        assert_eq!(codes("x.0.1.await.f"), [32, 34, 44, 34, 44, 34, 45, 34, 32]);
        assert_eq!(codes("1.0.f"), [33, 34, 32]);
        assert_eq!(codes("1.f"), [33, 34, 32]);
        assert_eq!(codes("1. + 2e-3 - 0xe-1"), [33, 0, 33, 1, 33, 1, 33]);
        assert_eq!(codes("std::f64::PI * 'x' + \"a\\\"b\""), [32, 2, 33, 0, 33]);
        assert!(tokens("if a").is_err());
        assert!(tokens("a # b").is_err());
        // As in Rust a comment begins here, and no operator.
        assert!(tokens("a /*b").is_err() && tokens("a // b").is_err());
        assert_eq!(codes("a/ *b"), [32, 3, 2, 32]);
        assert!(tokens("\"a").is_err());
    }
}
