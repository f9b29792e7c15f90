//! Right spines: an end below a run of forms that scan_right goes through, left
//! of a next operator, below any previous ones.

use super::curb::curb;
use super::dice::Dice;
use super::draft::{Label, Order};
use super::stem::{planted, Fill, Stem, NAME, TYPE};
use crate::forms::{operator::*, *};
use crate::table::NodeTable;

const BLOCK_BODY: Fill = Fill::Leaf(Label::of(BLOCK));
const GENERIC: Label = Label::new(TYPE_PATH, 0, 2);
const NEVER: Label = Label::of(TYPE_NEVER);

/// What a spine ends in.
pub const ENDS: [Stem; 60] = [
    Stem::leaf(PATH, 0, 0),
    Stem::leaf(PATH, 1, 0),
    Stem::leaf(PATH, 2, 0),
    Stem::leaf(LIT, 0, 0),
    Stem::leaf(BLOCK, 0, 0),
    Stem::leaf(BLOCK, 1, 0),
    Stem::leaf(BLOCK, 2, 0),
    Stem::leaf(BLOCK, 0, 1),
    Stem::leaf(LOOP, 0, 1),
    Stem::leaf(WHILE, 0, 1),
    Stem::leaf(FOR_LOOP, 0, 0),
    Stem::leaf(MATCH, 0, 0),
    Stem::leaf(IF, 2, 0),
    Stem::leaf(UNSAFE, 0, 0),
    Stem::leaf(CONST, 0, 0),
    Stem::leaf(TRY_BLOCK, 0, 0),
    Stem::leaf(ASYNC, 0, 0),
    Stem::leaf(STRUCT, 0, 0),
    Stem::leaf(STRUCT, 2, 0),
    Stem::leaf(MACRO, 0, 0),
    Stem::leaf(MACRO, 0, 2),
    Stem::leaf(VERBATIM, 0, 1),
    Stem::leaf(TUPLE, 0, 0),
    Stem::leaf(CONTINUE, 0, 0),
    Stem::leaf(RANGE, 0, 0),
    Stem::leaf(RANGE, 2, 0),
    Stem::leaf(BREAK, 0, 0),
    Stem::leaf(BREAK, 0, 1),
    Stem::leaf(BREAK, 2, 0),
    Stem::leaf(RETURN, 0, 0),
    Stem::leaf(RETURN, 1, 0),
    Stem::leaf(YIELD, 0, 0),
    Stem::one(RANGE, 0, 0).named(),
    Stem::one(RANGE, 1, 1).named(),
    Stem::one(FIELD, 0, 0).named(),
    Stem::one(FIELD, 0, 1).named(),
    Stem::one(TRY, 0, 0).named(),
    Stem::one(CALL, 0, 0).named(),
    Stem::one(METHOD_CALL, 2, 0).named(),
    Stem::one(CLOSURE, 0, 0).named(),
    Stem::one(CLOSURE, 2, 0).named(),
    Stem::new(CLOSURE, 0, 1, [BLOCK_BODY, Fill::Nothing]),
    Stem::new(CAST, 0, 0, [NAME, TYPE]),
    Stem::new(CAST, 1, 0, [NAME, TYPE]),
    Stem::cast(0, GENERIC).named(),
    Stem::cast(0, NEVER).named(),
    Stem::cast(0, Label::of(TYPE_FN_PTR)).named(),
    Stem::cast(0, Label::new(TYPE_IMPL_TRAIT, 0, 1)).named(),
    Stem::cast(0, Label::new(TYPE_TRAIT_OBJECT, 0, 1)).named(),
    Stem::cast(0, Label::new(TYPE_TRAIT_OBJECT, 0, 4)).named(),
    Stem::new(CAST, 0, 0, [NAME, Fill::Over(Label::of(TYPE_FN_PTR))]),
    Stem::new(CAST, 0, 0, [NAME, Fill::Over(Label::of(TYPE_PTR))]),
    Stem::new(CAST, 0, 0, [NAME, Fill::Over(Label::of(TYPE_REFERENCE))]),
    Stem::new(CAST, 0, 0, [NAME, Fill::Over(Label::new(TYPE_PATH, 0, 3))]),
    Stem::new(CAST, 0, 0, [NAME, Fill::Over(Label::new(TYPE_IMPL_TRAIT, 0, 3))]),
    Stem::new(CAST, 0, 0, [NAME, Fill::Over(Label::new(TYPE_TRAIT_OBJECT, 0, 3))]),
    Stem::two(BINARY, 1, ADD).named(),
    Stem::two(BINARY, 2, OR).named(),
    Stem::two(ASSIGN, 1, 0).named(),
    Stem::two(RANGE, 2, 0).named(),
];

/// What stands above a spine, with the spine for its left operand. In the last
/// two cases nothing does.
pub const NEXTS: [Option<Stem>; 43] = {
    let mut nexts = [None; 43];
    let mut operator = 0;
    while operator < 28 {
        nexts[operator as usize] = Some(Stem::left(BINARY, 0, operator));
        operator += 1;
    }
    nexts[28] = Some(Stem::left(ASSIGN, 0, 0));
    nexts[29] = Some(Stem::left(RANGE, 0, 0));
    nexts[30] = Some(Stem::left(RANGE, 0, 1));
    nexts[31] = Some(Stem::one(RANGE, 0, 0));
    nexts[32] = Some(Stem::new(CAST, 0, 0, [Fill::Hole, TYPE]));
    nexts[33] = Some(Stem::cast(0, NEVER));
    nexts[34] = Some(Stem::one(CALL, 0, 0));
    nexts[35] = Some(Stem::left(INDEX, 0, 0));
    nexts[36] = Some(Stem::one(FIELD, 0, 0));
    nexts[37] = Some(Stem::one(FIELD, 0, 1));
    nexts[38] = Some(Stem::one(METHOD_CALL, 0, 0));
    nexts[39] = Some(Stem::one(TRY, 0, 0));
    nexts[40] = Some(Stem::one(AWAIT, 0, 0));
    nexts
};

/// What a spine goes through.
const ARMS: [Stem; 32] = [
    Stem::right(ASSIGN, 0, 0),
    Stem::right(BINARY, 0, ADD_ASSIGN),
    Stem::right(BINARY, 0, OR),
    Stem::right(BINARY, 0, AND),
    Stem::right(BINARY, 0, EQ),
    Stem::right(BINARY, 0, LT),
    Stem::right(BINARY, 0, BIT_OR),
    Stem::right(BINARY, 0, BIT_XOR),
    Stem::right(BINARY, 0, BIT_AND),
    Stem::right(BINARY, 0, SHL),
    Stem::right(BINARY, 0, SUB),
    Stem::right(BINARY, 0, MUL),
    Stem::one(UNARY, 0, 2),
    Stem::one(UNARY, 0, 0),
    Stem::one(REFERENCE, 0, 0),
    Stem::one(RAW_ADDR, 0, 1),
    Stem::right(RANGE, 0, 0),
    Stem::new(RANGE, 0, 0, [Fill::Nothing, Fill::Hole]),
    Stem::new(RANGE, 0, 1, [Fill::Nothing, Fill::Hole]),
    Stem::one(BREAK, 0, 0),
    Stem::one(BREAK, 0, 1),
    Stem::one(RETURN, 0, 0),
    Stem::one(YIELD, 0, 0),
    Stem::one(LET, 0, 0),
    Stem::one(LET, 0, 0),
    Stem::one(GROUP, 0, 0),
    Stem::one(GROUP, 0, 0),
    Stem::one(GROUP, 0, 0),
    Stem::one(GROUP, 2, 0),
    Stem::one(CLOSURE, 0, 0),
    Stem::one(UNARY, 2, 1),
    Stem::right(BINARY, 1, AND),
];

/// What stands in place of a name beside the spine, now and then.
const OTHERS: [Label; 6] = [
    Label::of(MATCH),
    Label::of(BLOCK),
    Label::new(BLOCK, 0, 1),
    Label::of(STRUCT),
    Label::new(MACRO, 0, 2),
    Label::of(RETURN),
];

/// A spine: end, next operator and context follow from the index, all else from
/// the dice. Within 60 * 43 * 4 = 10,320 indexes each end stands below each next
/// operator in each context once.
pub fn spine(dice: &mut Dice, index: u64) -> NodeTable {
    let index = index as usize;
    let end = ENDS[index % ENDS.len()];
    let next = NEXTS[index / ENDS.len() % NEXTS.len()];
    let context = index / (ENDS.len() * NEXTS.len()) % 4;
    let mut stems = run(dice, &[0, 0, 0, 0, 1, 1, 2, 3]);
    stems.extend(next);
    let longest = dice.pick(&[1, 2, 2, 3, 3, 3, 4, 4, 4, 5, 6, 8, 12, 30, 100]);
    let length = dice.below(longest + 1);
    stems.extend(run(dice, &[length]));
    stems.push(end);
    let mut draft = planted(stems.into_iter().map(|stem| varied(dice, stem)));
    curb(&mut draft);
    draft.number(context as u16, Order::any(dice), dice)
}

/// So many arms as one of the lengths says.
fn run(dice: &mut Dice, lengths: &[usize]) -> Vec<Stem> {
    let length = dice.pick(lengths);
    (0..length).map(|_| dice.pick(&ARMS)).collect()
}

/// The stem, now and then with something else for a name.
fn varied(dice: &mut Dice, mut stem: Stem) -> Stem {
    for fill in &mut stem.fills {
        if *fill == NAME && dice.percent(5) {
            *fill = Fill::Leaf(dice.pick(&OTHERS));
        }
    }
    stem
}
