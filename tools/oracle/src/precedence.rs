//! prettyplease's precedence.rs, and behind it the numbers of document 01.

include!(concat!(env!("OUT_DIR"), "/precedence.rs"));

/// The enum in its order.
const NUMBERED: [Precedence; 16] = [
    Precedence::Jump,
    Precedence::Assign,
    Precedence::Range,
    Precedence::Or,
    Precedence::And,
    Precedence::Let,
    Precedence::Compare,
    Precedence::BitOr,
    Precedence::BitXor,
    Precedence::BitAnd,
    Precedence::Shift,
    Precedence::Sum,
    Precedence::Product,
    Precedence::Cast,
    Precedence::Prefix,
    Precedence::Unambiguous,
];

impl Precedence {
    /// From 0, Jump, to 15, Unambiguous.
    pub(crate) fn number(self) -> u16 {
        self as u16
    }

    pub(crate) fn from_number(number: u16) -> Self {
        NUMBERED[number as usize]
    }
}
