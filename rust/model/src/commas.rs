//! Commas straight before a `)`, a `>` or a `]`. One that follows the last item of an
//! argument list or a type list is taken (document 02, Paper 1), any other is not.
//!
//! Which ones are taken follows from document 01's own rule, commas between items only:
//! those behind which an item may stand. A literal, which is no type, shows that of `)`,
//! and `_`, which is no expression, that of `>`; for `]` nothing does.

use crate::codes::*;
use crate::generate::Dice;

/// Whether a code closes something.
pub fn closes(code: u16) -> bool {
    matches!(code, CLOSE | GREATER | CLOSE_BRACKET)
}

/// Where such a comma stands.
pub fn before_closing(tokens: &[Token]) -> Vec<usize> {
    let stands = |window: &[Token]| window[0].code == COMMA && closes(window[1].code);
    (0..).zip(tokens.windows(2)).filter(|(_, window)| stands(window)).map(|(at, _)| at).collect()
}

/// The list without these commas.
pub fn without(tokens: &[Token]) -> Vec<Token> {
    let commas = before_closing(tokens);
    (0..tokens.len()).filter(|at| !commas.contains(at)).map(|at| tokens[at]).collect()
}

/// What shows that a comma before this code follows the last item of a list.
pub fn item_before(closing: u16) -> u16 {
    match closing {
        GREATER => UNDERSCORE,
        _ => LITERAL,
    }
}

/// The list with an item behind each of these commas.
pub fn with_items(tokens: &[Token]) -> Vec<Token> {
    let commas = before_closing(tokens);
    let item = |at: usize| commas.contains(&at).then(|| item_before(tokens[at + 1].code).into());
    (0..tokens.len()).flat_map(|at| [Some(tokens[at]), item(at)]).flatten().collect()
}

/// Puts up to three commas in: most before what closes something, some behind what opens
/// something, behind another comma or anywhere.
pub fn put_in(dice: &mut Dice, tokens: &mut Vec<Token>) {
    for _ in 0..dice.between(1, 3) {
        let (is_meant, behind): (fn(u16) -> bool, usize) = match dice.below(10) {
            0 => (|code| code == COMMA, 1),
            1 => (|code| matches!(code, OPEN | LESS | OPEN_BRACKET), 1),
            2 => (|_| true, 0),
            _ => (closes, 0),
        };
        let places: Vec<usize> =
            (0..tokens.len()).filter(|&at| is_meant(tokens[at].code)).collect();
        if !places.is_empty() {
            tokens.insert(dice.pick(&places) + behind, COMMA.into());
        }
    }
}

#[cfg(test)]
mod tests {
    use super::*;

    #[test]
    fn commas_go_and_items_come() {
        let codes = [NAME, OPEN, NAME, COMMA, CLOSE, AS, NAME, LESS, NAME, COMMA, GREATER];
        let list = tokens(&codes);
        assert_eq!(before_closing(&list), [3, 9]);
        let bare = [NAME, OPEN, NAME, CLOSE, AS, NAME, LESS, NAME, GREATER];
        assert_eq!(without(&list), tokens(&bare));
        assert_eq!(with_items(&list)[3..6], tokens(&[COMMA, LITERAL, CLOSE]));
        assert_eq!(with_items(&list)[10..], tokens(&[COMMA, UNDERSCORE, GREATER]));
        assert_eq!(before_closing(&tokens(&[COMMA, COMMA, CLOSE, COMMA, OPEN])), [1]);
    }
}
