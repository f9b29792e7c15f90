//! Random trees.

use super::curb::curb;
use super::dice::Dice;
use super::draft::{Draft, Label, Slot};
use crate::forms::{self, *};
use crate::sizes::{MOST_LEVELS, MOST_NODES};

/// Which labels a random tree has, and how often.
#[derive(Copy, Clone, PartialEq, Eq, Debug)]
pub enum Profile {
    /// All forms alike.
    All,
    /// Mostly forms that scan_right has arms for, few attributes.
    Scans,
    /// The forms of plain trees but Struct.
    Plain,
    /// The forms of plain trees, many Structs among them.
    Structs,
    /// All forms, and many Calls, Groups and Fields among them, with many attributes.
    Callees,
}

const ALL_INNER: [u16; 20] = [
    ASSIGN,
    AWAIT,
    BINARY,
    BREAK,
    CALL,
    CAST,
    CLOSURE,
    FIELD,
    GROUP,
    INDEX,
    LET,
    METHOD_CALL,
    PAREN,
    RANGE,
    RAW_ADDR,
    REFERENCE,
    RETURN,
    TRY,
    UNARY,
    YIELD,
];
/// Half of the inner nodes of [`Profile::Callees`] are one of these, the others of any form.
const CALLEES_INNER: [u16; 7] = [CALL, CALL, CALL, GROUP, GROUP, FIELD, FIELD];
const ALL_LEAVES: [u16; 24] = [
    ARRAY, ASYNC, BLOCK, BREAK, CONST, CONTINUE, FOR_LOOP, IF, INFER, LIT, LOOP, MACRO, MATCH,
    PATH, RANGE, REPEAT, RETURN, STRUCT, TRY_BLOCK, TUPLE, UNSAFE, VERBATIM, WHILE, YIELD,
];
const SCANS_INNER: [u16; 36] = [
    ASSIGN,
    ASSIGN,
    BINARY,
    BINARY,
    BINARY,
    BINARY,
    BINARY,
    BINARY,
    BINARY,
    BREAK,
    BREAK,
    RETURN,
    YIELD,
    CAST,
    CAST,
    CLOSURE,
    GROUP,
    GROUP,
    GROUP,
    GROUP,
    LET,
    LET,
    LET,
    RANGE,
    RANGE,
    RANGE,
    RANGE,
    UNARY,
    UNARY,
    REFERENCE,
    RAW_ADDR,
    FIELD,
    CALL,
    TRY,
    INDEX,
    METHOD_CALL,
];
const SCANS_LEAVES: [u16; 16] = [
    PATH, PATH, PATH, PATH, LIT, BLOCK, LOOP, MATCH, STRUCT, MACRO, RANGE, RANGE, RETURN, BREAK,
    YIELD, VERBATIM,
];
const PLAIN_INNER: [u16; 14] = [
    PAREN,
    UNARY,
    REFERENCE,
    BINARY,
    BINARY,
    BINARY,
    ASSIGN,
    CAST,
    FIELD,
    INDEX,
    CALL,
    METHOD_CALL,
    TRY,
    AWAIT,
];
const PLAIN_LEAVES: [u16; 2] = [PATH, LIT];
const STRUCTS_LEAVES: [u16; 3] = [PATH, LIT, STRUCT];
const TYPES_INNER: [u16; 6] =
    [TYPE_PTR, TYPE_REFERENCE, TYPE_FN_PTR, TYPE_PATH, TYPE_IMPL_TRAIT, TYPE_TRAIT_OBJECT];
const TYPES_LEAVES: [u16; 15] = [
    TYPE_ARRAY,
    TYPE_FN_PTR,
    TYPE_GROUP,
    TYPE_IMPL_TRAIT,
    TYPE_INFER,
    TYPE_MACRO,
    TYPE_NEVER,
    TYPE_PAREN,
    TYPE_PATH,
    TYPE_PATH,
    TYPE_PATH,
    TYPE_SLICE,
    TYPE_TRAIT_OBJECT,
    TYPE_TUPLE,
    TYPE_VERBATIM,
];
const PLAIN_TYPES_INNER: [u16; 3] = [TYPE_PTR, TYPE_REFERENCE, TYPE_PATH];
const PLAIN_TYPES_LEAVES: [u16; 4] = [TYPE_PATH, TYPE_PATH, TYPE_INFER, TYPE_NEVER];

/// A tree of 1 to 60 nodes, seldom of up to 4,096, with paths of up to 128.
pub fn random(dice: &mut Dice, profile: Profile) -> Draft {
    let size = match dice.below(400) {
        0 => dice.between(60, MOST_NODES),
        1 => MOST_NODES,
        2..=9 => dice.between(60, 300),
        10..=99 => dice.between(1, 60),
        100..=199 => dice.between(1, 25),
        200..=299 => dice.between(1, 12),
        _ => dice.between(1, 6),
    };
    let deep = dice.pick(&[10, 50, 80, 97, 100]);
    let mut draft = Growth::new(dice, profile, size).grow(deep);
    curb(&mut draft);
    draft
}

/// A place that waits for an operand.
struct Opening {
    slot: Slot,
    place: Place,
    /// How many nodes the path to the owner holds.
    depth: usize,
}

/// A tree that grows, place by place. A place that must be filled counts as a
/// node already.
struct Growth<'a> {
    dice: &'a mut Dice,
    profile: Profile,
    size: usize,
    total: usize,
    draft: Draft,
    openings: Vec<Opening>,
}

impl<'a> Growth<'a> {
    fn new(dice: &'a mut Dice, profile: Profile, size: usize) -> Self {
        Growth { dice, profile, size, total: 1, draft: Draft::default(), openings: Vec::new() }
    }

    /// Fills place after place, in so many of a hundred cases the latest one.
    fn grow(mut self, deep: usize) -> Draft {
        let root = self.label(Class::Expression, self.size - 1);
        self.draft = Draft::new(root);
        self.open(0, 1);
        while !self.openings.is_empty() {
            let last = self.openings.len() - 1;
            let at = if self.dice.percent(deep) { last } else { self.dice.below(last + 1) };
            let opening = self.openings.swap_remove(at);
            self.fill(opening);
        }
        self.draft
    }

    fn room(&self) -> usize {
        self.size.saturating_sub(self.total)
    }

    /// Opens the places of a node.
    fn open(&mut self, owner: usize, depth: usize) {
        let label = self.draft.nodes[owner].label;
        if label.form == CLOSURE && label.detail == 1 {
            self.total += 1;
            self.draft.put(Slot { owner, place: 0 }, Label::of(BLOCK));
            return;
        }
        for (at, place) in forms::places(label.form, label.detail).into_iter().enumerate() {
            if place != Place::Nothing {
                self.total += usize::from(place.required());
                self.openings.push(Opening { slot: Slot { owner, place: at }, place, depth });
            }
        }
    }

    fn fill(&mut self, Opening { slot, place, depth }: Opening) {
        let class = match place {
            Place::Type | Place::OptionalType | Place::TypeList => Class::Type,
            _ => Class::Expression,
        };
        if !place.required() {
            let is_list = matches!(place, Place::ExpressionList | Place::TypeList);
            let only = self.openings.is_empty();
            if self.room() < 1 + usize::from(is_list)
                || depth == MOST_LEVELS
                || !only && self.dice.percent(30)
            {
                return;
            }
            self.total += 1;
            if is_list {
                self.total += 1;
                let link = self.draft.put(slot, Label::of(LINK));
                let item = if class == Class::Type { Place::Type } else { Place::Expression };
                let slots = [0, 1].map(|place| Slot { owner: link, place });
                self.openings.push(Opening { slot: slots[1], place, depth });
                self.openings.push(Opening { slot: slots[0], place: item, depth });
                return;
            }
        }
        let label = match depth + 1 {
            MOST_LEVELS => self.leaf(class),
            _ => self.label(class, self.room()),
        };
        let node = self.draft.put(slot, label);
        if depth + 1 < MOST_LEVELS {
            self.open(node, depth + 1);
        }
    }

    /// A label with no more required operands than there is room for, and, while
    /// nothing else can grow, with operands to grow by.
    fn label(&mut self, class: Class, room: usize) -> Label {
        let only = room > 0 && self.openings.is_empty();
        for _ in 0..20 {
            let label = match only || self.dice.percent(70) {
                true => self.inner(class),
                false => self.leaf(class),
            };
            let places = forms::places(label.form, label.detail);
            let needs = places.iter().filter(|place| place.required()).count();
            let ends = label.form == CLOSURE && label.detail == 1;
            if needs <= room && !(only && ends) {
                return label;
            }
        }
        self.leaf(class)
    }

    /// A label that has places for operands.
    fn inner(&mut self, class: Class) -> Label {
        let form = match (class, self.profile) {
            (Class::Type, Profile::Plain | Profile::Structs) => self.dice.pick(&PLAIN_TYPES_INNER),
            (Class::Type, _) => self.dice.pick(&TYPES_INNER),
            (_, Profile::Callees) if self.dice.percent(50) => self.dice.pick(&CALLEES_INNER),
            (_, Profile::All | Profile::Callees) => self.dice.pick(&ALL_INNER),
            (_, Profile::Scans) => self.dice.pick(&SCANS_INNER),
            (_, Profile::Plain | Profile::Structs) => self.dice.pick(&PLAIN_INNER),
        };
        let detail = match (form, self.profile) {
            (TYPE_PATH, Profile::Plain | Profile::Structs) => 2,
            (TYPE_PATH, _) => self.dice.pick(&[2, 3, 3]),
            (TYPE_IMPL_TRAIT | TYPE_TRAIT_OBJECT, _) => 3,
            _ => self.detail(form),
        };
        self.attributed(form, detail)
    }

    /// A label that needs no operands.
    fn leaf(&mut self, class: Class) -> Label {
        let form = match (class, self.profile) {
            (Class::Type, Profile::Plain | Profile::Structs) => self.dice.pick(&PLAIN_TYPES_LEAVES),
            (Class::Type, _) => self.dice.pick(&TYPES_LEAVES),
            (_, Profile::All | Profile::Callees) => self.dice.pick(&ALL_LEAVES),
            (_, Profile::Scans) => self.dice.pick(&SCANS_LEAVES),
            (_, Profile::Plain) => self.dice.pick(&PLAIN_LEAVES),
            (_, Profile::Structs) => self.dice.pick(&STRUCTS_LEAVES),
        };
        let detail = match (form, self.profile) {
            (TYPE_PATH, Profile::Plain | Profile::Structs) => 1,
            (TYPE_PATH, Profile::Scans) => self.dice.pick(&[1, 1, 2, 3]),
            (TYPE_PATH | TYPE_IMPL_TRAIT | TYPE_TRAIT_OBJECT, _) => {
                1 + self.dice.below(forms::details(form) as usize - 1) as u16
            }
            _ => self.detail(form),
        };
        self.attributed(form, detail)
    }

    fn detail(&mut self, form: u16) -> u16 {
        self.dice.below(forms::details(form) as usize) as u16
    }

    fn attributed(&mut self, form: u16, detail: u16) -> Label {
        let some = match self.profile {
            Profile::All => 30,
            Profile::Callees => 60,
            Profile::Scans => 6,
            Profile::Plain | Profile::Structs => 0,
        };
        let attributes = match self.dice.percent(some) {
            true => self.dice.below(forms::attributes(form) as usize) as u16,
            false => 0,
        };
        Label::new(form, attributes, detail)
    }
}
