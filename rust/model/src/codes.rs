//! Plain tokens: their codes and their symbols. Of the codes 0 to 27 are the operators, in the order of Binary's
//! details; minus, star and `&` stand for prefixes too.

use crate::sizes::{LAST_CODE, TOKEN_CELLS};

/// The codes that are no operator's, or that are more than an operator.
macro_rules! codes {
    ($($name:ident $number:literal,)*) => {
        $(#[doc = concat!("Code ", $number)] pub const $name: u16 = $number;)*
    };
}

codes! {
    MINUS 1,
    STAR 2,
    AND_AND 5,
    AND 8,
    SHIFT_LEFT 10,
    LESS 13,
    LESS_OR_EQUAL 14,
    GREATER 17,
    EQUALS 28,
    NOT 29,
    AND_MUT 30,
    AS 31,
    NAME 32,
    LITERAL 33,
    DOT 34,
    OPEN 35,
    CLOSE 36,
    OPEN_BRACKET 37,
    CLOSE_BRACKET 38,
    COMMA 39,
    QUESTION 40,
    STAR_CONST 41,
    STAR_MUT 42,
    UNDERSCORE 43,
    MEMBER 44,
    AWAIT 45,
    STRUCT 46,
}

/// A token: its code, and the symbol that a name, a literal or a numbered member carries,
/// 0 on any other.
#[derive(Copy, Clone, PartialEq, Eq, Hash, Debug, Default)]
pub struct Token {
    pub code: u16,
    pub symbol: u16,
}

impl Token {
    pub const fn new(code: u16, symbol: u16) -> Token {
        Token { code, symbol }
    }

    /// Its cells in a token list.
    pub const fn cells(self) -> [u16; TOKEN_CELLS] {
        [self.code, self.symbol]
    }

    /// The tokens that have those cells in a list, whose number is even.
    pub fn of_cells(cells: &[u16]) -> Vec<Token> {
        cells.chunks_exact(TOKEN_CELLS).map(|cells| Token::new(cells[0], cells[1])).collect()
    }
}

/// A token without a symbol.
impl From<u16> for Token {
    fn from(code: u16) -> Token {
        Token::new(code, 0)
    }
}

/// Whether a token with this code may carry a symbol that is not 0.
pub const fn has_symbol(code: u16) -> bool {
    matches!(code, NAME | LITERAL | MEMBER)
}

/// Tokens without symbols.
pub fn tokens(codes: &[u16]) -> Vec<Token> {
    codes.iter().map(|&code| code.into()).collect()
}

/// The cells of a token list.
pub fn cells(tokens: &[Token]) -> Vec<u16> {
    tokens.iter().flat_map(|token| token.cells()).collect()
}

/// How many codes there are.
pub const CODES: u16 = LAST_CODE + 1;

/// How each code is spelled; a name, a literal and a numbered member are spelled by
/// what their symbol stands for, a struct by its name and braces.
pub const SPELLED: [&str; CODES as usize] = [
    "+", "-", "*", "/", "%", "&&", "||", "^", "&", "|", "<<", ">>", "==", "<", "<=", "!=", ">=",
    ">", "+=", "-=", "*=", "/=", "%=", "^=", "&=", "|=", "<<=", ">>=", "=", "!", "&mut", "as",
    "NAME", "LITERAL", ".", "(", ")", "[", "]", ",", "?", "*const", "*mut", "_", "MEMBER", "await",
    "STRUCT",
];

/// A token list as Rust, its words parted by spaces: a name is `x` and its symbol, a
/// literal and a numbered member are their symbol, a struct is `S { }`.
pub fn text(tokens: &[Token]) -> String {
    let spelled = |&Token { code, symbol }: &Token| match code {
        NAME => format!("x{symbol}"),
        LITERAL | MEMBER => symbol.to_string(),
        STRUCT => "S { }".to_string(),
        _ => SPELLED.get(usize::from(code)).copied().unwrap_or("#").to_string(),
    };
    tokens.iter().map(spelled).collect::<Vec<_>>().join(" ")
}
