//! What is open at a place of a token list: which brackets, and what may come next.
//!
//! Nothing is decided by this. It tells the lexer where `&&` is two references and
//! `>>` closes two lists, what spells tokens where blanks stand, and how a token list can be
//! completed to see whether its beginning has a reading.

use model::codes::*;

/// What may come next.
#[derive(Copy, Clone, PartialEq, Eq, Debug)]
pub enum Next {
    Operand,
    Type,
    /// A type name stands before: `<` opens type arguments.
    BehindTypeName,
    Member,
    /// An operand stands before.
    Behind,
}

/// The open brackets, as the codes that close them, and what may come next.
#[derive(Clone, Debug)]
pub struct Open {
    pub closing: Vec<u16>,
    pub next: Next,
}

impl Default for Open {
    fn default() -> Open {
        Open { closing: Vec::new(), next: Next::Operand }
    }
}

impl Open {
    /// What is open behind a token list.
    pub fn behind(codes: &[u16]) -> Open {
        let mut open = Open::default();
        codes.iter().for_each(|&code| open.push(code));
        open
    }

    /// Whether the innermost bracket is a list of type arguments.
    pub fn in_type_arguments(&self) -> bool {
        self.closing.last() == Some(&GREATER)
    }

    /// Whether a prefix may come next, of an operand or of a type.
    pub fn wants_prefix(&self) -> bool {
        matches!(self.next, Next::Operand | Next::Type)
    }

    /// Whether a type may come next.
    pub fn wants_type(&self) -> bool {
        self.next == Next::Type
    }

    /// Whether a token that comes next would stand between two operands, or between an
    /// operand and a type.
    pub fn is_infix(&self, code: u16) -> bool {
        match code {
            AS => true,
            LESS if self.next == Next::BehindTypeName => false,
            GREATER if self.in_type_arguments() => false,
            _ => code <= EQUALS && !self.wants_prefix(),
        }
    }

    /// Takes another token.
    pub fn push(&mut self, code: u16) {
        self.next = match (code, self.next) {
            (LESS, Next::BehindTypeName) => self.opened(GREATER, Next::Type),
            (GREATER, _) if self.in_type_arguments() => self.closed(),
            (NAME, Next::Type) => Next::BehindTypeName,
            (AND | AND_MUT | STAR_CONST | STAR_MUT, Next::Type) => Next::Type,
            (UNDERSCORE | NOT, Next::Type) => Next::Behind,
            (OPEN, _) => self.opened(CLOSE, Next::Operand),
            (OPEN_BRACKET, _) => self.opened(CLOSE_BRACKET, Next::Operand),
            (CLOSE | CLOSE_BRACKET, _) => self.closed(),
            (COMMA, _) if self.in_type_arguments() => Next::Type,
            (AS, _) => Next::Type,
            (DOT, _) => Next::Member,
            (NAME | LITERAL | STRUCT | MEMBER | AWAIT | QUESTION | UNDERSCORE, _) => Next::Behind,
            _ => Next::Operand,
        };
    }

    fn opened(&mut self, closing: u16, next: Next) -> Next {
        self.closing.push(closing);
        next
    }

    fn closed(&mut self) -> Next {
        self.closing.pop();
        Next::Behind
    }
}
