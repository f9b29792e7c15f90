//! How operators bind, held against the levels and leans of the enumerator of readings
//! (`model::rules`), which does not use the library.

use model::codes::EQUALS;
use model::rules::{Infix, Rules};
use tezhukor::sizes::LAST_OPERATOR;
use tezhukor::{Binding, Lean};

/// The lean that the loosest operands on either side say.
fn lean(infix: Infix) -> Lean {
    match (infix.left == infix.level, infix.right == infix.level) {
        (true, false) => Lean::Left,
        (false, true) => Lean::Right,
        _ => Lean::Neither,
    }
}

fn binding(operator: u16) -> Binding {
    Binding::of(operator).expect("an operator")
}

/// Each operator of a token leans as there, and any two have their levels in that order.
#[test]
fn rules_agree() {
    let rules = Rules::new(None);
    let infix = |operator| rules.infix(operator).expect("an operator");
    for one in 0..=EQUALS {
        assert_eq!(binding(one).lean, lean(infix(one)), "{one}");
        for other in 0..=EQUALS {
            let order = binding(one).level.cmp(&binding(other).level);
            assert_eq!(order, infix(one).level.cmp(&infix(other).level), "{one} {other}");
        }
    }
}

/// Ranges stand between assignments and `||`, and lean to neither side.
#[test]
fn ranges() {
    let range = binding(Binding::RANGE);
    assert_eq!(range, Binding { level: 2, lean: Lean::Neither });
    assert!(binding(Binding::ASSIGN).level < range.level && range.level < binding(6).level);
}

#[test]
fn no_other_number_is_an_operator() {
    for number in 0..=u16::MAX {
        assert_eq!(Binding::of(number).is_some(), number <= LAST_OPERATOR, "{number}");
    }
}
