//! All right spines of a few forms: forms one below the other, each the right
//! operand of the one before, over an end, left of a next operator or of nothing.

use super::dice::Dice;
use super::draft::{Label, Order};
use super::piece::Piece;
use super::small::every_stem;
use super::spines::{ENDS, NEXTS};
use super::stem::{planted, Fill, Stem, NAME, TYPE};
use crate::forms::{self, operator::*, *};
use crate::sizes::MOST_LEVELS;
use crate::table::NodeTable;

/// All spines over sets of next operators, forms and ends, by number.
pub struct Spines {
    /// What stands above a spine, with the spine for its left operand.
    pub nexts: Vec<Option<Stem>>,
    pub forms: Vec<Stem>,
    /// How many forms a spine has.
    pub length: u32,
    pub ends: Vec<Stem>,
}

impl Spines {
    /// All forms with a right operand, all ends and all next operators, with all
    /// attributes and details.
    pub fn every(length: u32) -> Self {
        Spines { nexts: nexts(), forms: every_form(), length, ends: every_end() }
    }

    /// The same with one form for each kind that the crate's files tell apart.
    pub fn over_kinds(length: u32) -> Self {
        Spines { forms: kinds(), ..Spines::every(length) }
    }

    /// The same with fewer kinds, and a few ends, those that differ for scan_right.
    pub fn with_few_ends(length: u32) -> Self {
        Spines { forms: SOME_KINDS.to_vec(), ends: FEW_ENDS.to_vec(), ..Spines::every(length) }
    }

    /// The same with one form for each arm of scan_right.
    pub fn over_arms(length: u32) -> Self {
        Spines { forms: ARMS.to_vec(), ..Spines::with_few_ends(length) }
    }

    /// How many spines there are, without contexts.
    pub fn len(&self) -> u64 {
        self.blocks() * self.nexts.len() as u64 * self.ends.len() as u64
    }

    /// A block is the spines of the same forms.
    pub fn blocks(&self) -> u64 {
        (self.forms.len() as u64).pow(self.length)
    }

    /// Whether there is no spine at all.
    pub fn is_empty(&self) -> bool {
        self.len() == 0
    }

    /// Next operator, forms and end of the spine with a number from 0 on.
    fn parts(&self, mut index: u64) -> (Option<Stem>, Vec<Stem>, Stem) {
        let mut digit = |base: usize| {
            let digit = index % base as u64;
            index /= base as u64;
            digit as usize
        };
        let end = self.ends[digit(self.ends.len())];
        let next = self.nexts[digit(self.nexts.len())];
        let forms = (0..self.length).map(|_| self.forms[digit(self.forms.len())]);
        (next, forms.collect(), end)
    }

    /// The stems of the spine with a number, from the top down.
    pub fn stems(&self, index: u64) -> Vec<Stem> {
        let (next, forms, end) = self.parts(index);
        next.into_iter().chain(forms).chain([end]).collect()
    }

    /// The spine with a number, in a context, its nodes numbered as its stems follow
    /// each other.
    pub fn tree(&self, context: u16, index: u64) -> NodeTable {
        let pieces: Vec<Piece> = self.stems(index).into_iter().map(Piece::of).collect();
        Piece::table(context, &pieces.iter().collect::<Vec<_>>())
    }

    /// The spines of a block, by number from the block's first on.
    pub fn block(&self, block: u64) -> impl Iterator<Item = NodeTable> {
        let in_block = self.nexts.len() as u64 * self.ends.len() as u64;
        let (_, forms, _) = self.parts(block * in_block);
        let forms: Vec<Piece> = forms.into_iter().map(Piece::of).collect();
        let nexts: Vec<Piece> = self.nexts.iter().copied().map(Piece::of_some).collect();
        let ends: Vec<Piece> = self.ends.iter().copied().map(Piece::of).collect();
        let spine = move |next: usize, end: usize| {
            let pieces = [&nexts[next]].into_iter().chain(&forms).chain([&ends[end]]);
            Piece::table(0, &pieces.collect::<Vec<_>>())
        };
        let (nexts, ends) = (self.nexts.len(), self.ends.len());
        (0..nexts * ends).map(move |at| spine(at / ends, at % ends))
    }

    /// The spine with a number, its forms by turns as often as a path may hold them.
    pub fn nest(&self, context: u16, index: u64) -> NodeTable {
        let (next, forms, end) = self.parts(index);
        let levels = MOST_LEVELS - next.iter().count() - end.depth();
        let turns = forms.into_iter().cycle().take(levels);
        numbered(context, next.into_iter().chain(turns).chain([end]))
    }
}

fn numbered(context: u16, stems: impl IntoIterator<Item = Stem>) -> NodeTable {
    planted(stems).number(context, Order::Printing, &mut Dice::new(0, 0))
}

/// Each next operator once, and none.
fn nexts() -> Vec<Option<Stem>> {
    let mut nexts = Vec::new();
    for next in NEXTS {
        if !nexts.contains(&next) {
            nexts.push(next);
        }
    }
    nexts
}

/// The stem with a further expression for its right operand only, if it has one. A
/// Group's content counts as one.
fn with_right_operand(stem: Stem) -> Option<Stem> {
    let is_right = |&place: &usize| {
        let right = stem.label.form == GROUP || forms::side(stem.label.form, place) == Side::Right;
        right && stem.fills[place] == Fill::Hole
    };
    let place = (0..2).find(is_right)?;
    let mut stem = stem.named();
    stem.fills[place] = Fill::Hole;
    Some(stem)
}

fn every_form() -> Vec<Stem> {
    every_stem().into_iter().filter_map(with_right_operand).collect()
}

/// Whether scan_right looks at the right operand.
fn is_gone_through(stem: Stem) -> bool {
    let closed = matches!(stem.label.form, ASSIGN | BINARY | RANGE) && stem.label.attributes != 0;
    with_right_operand(stem).is_some() && !closed && stem.label.form != CLOSURE
}

/// All stems at which scan_right stops, with names for their operands.
fn every_end() -> Vec<Stem> {
    let mut ends = ENDS.to_vec();
    for stem in every_stem().into_iter().filter(|&stem| !is_gone_through(stem)) {
        if stem.named().holes() == 0 && !ends.contains(&stem.named()) {
            ends.push(stem.named());
        }
    }
    ends
}

/// What differs for scan_right.
const FEW_ENDS: [Stem; 7] = [
    Stem::leaf(PATH, 0, 0),
    Stem::leaf(BLOCK, 0, 1),
    Stem::leaf(RANGE, 0, 0),
    Stem::leaf(BREAK, 0, 0),
    Stem::one(RANGE, 0, 0).named(),
    Stem::one(CLOSURE, 0, 0).named(),
    Stem::new(CAST, 0, 0, [NAME, TYPE]),
];

/// Whether the crate's files tell a form from a kind. A right operand sees the level of
/// a Binary operator and not which one it is; of attributes only whether there are any,
/// and that only in Assign, Binary, Range and Group; and nothing of other details but the
/// label of a Break.
fn is_like(stem: Stem, kind: Stem) -> bool {
    let seen = |stem: Stem| {
        let Label { form, attributes, detail, .. } = stem.label;
        let attributed = matches!(form, ASSIGN | BINARY | RANGE | GROUP) && attributes != 0;
        let detail = match form {
            BINARY => level(detail),
            BREAK => detail,
            _ => 0,
        };
        (form, attributed, detail, stem.fills)
    };
    seen(stem) == seen(kind)
}

/// One form for each kind that the crate's files tell apart.
fn kinds() -> Vec<Stem> {
    let mut kinds: Vec<Stem> = Vec::new();
    for form in every_form() {
        if !kinds.iter().any(|&kind| is_like(form, kind)) {
            kinds.push(form);
        }
    }
    kinds
}

/// The first operator of an operator's level.
fn level(operator: u16) -> u16 {
    match operator {
        ADD..=SUB => ADD,
        MUL..=REM => MUL,
        SHL..=SHR => SHL,
        EQ..=GT => EQ,
        ADD_ASSIGN.. => ADD_ASSIGN,
        alone => alone,
    }
}

/// One form for each kind of behaviour, most of them without attributes.
const SOME_KINDS: [Stem; 25] = [
    Stem::right(ASSIGN, 0, 0),
    Stem::right(BINARY, 0, ADD_ASSIGN),
    Stem::right(BINARY, 0, OR),
    Stem::right(BINARY, 0, AND),
    Stem::right(BINARY, 0, EQ),
    Stem::right(BINARY, 0, BIT_OR),
    Stem::right(BINARY, 0, BIT_XOR),
    Stem::right(BINARY, 0, BIT_AND),
    Stem::right(BINARY, 0, SHL),
    Stem::right(BINARY, 0, SUB),
    Stem::right(BINARY, 0, MUL),
    Stem::right(BINARY, 1, AND),
    Stem::one(UNARY, 0, 2),
    Stem::one(REFERENCE, 0, 0),
    Stem::one(RAW_ADDR, 0, 0),
    Stem::right(RANGE, 0, 0),
    Stem::new(RANGE, 0, 1, [Fill::Nothing, Fill::Hole]),
    Stem::one(BREAK, 0, 0),
    Stem::one(BREAK, 0, 1),
    Stem::one(RETURN, 0, 0),
    Stem::one(YIELD, 0, 0),
    Stem::one(LET, 0, 0),
    Stem::one(GROUP, 0, 0),
    Stem::one(GROUP, 2, 0),
    Stem::one(CLOSURE, 0, 0),
];

/// One form for each arm of scan_right, with operators of four levels.
const ARMS: [Stem; 11] = [
    Stem::right(ASSIGN, 0, 0),
    Stem::right(BINARY, 0, ADD_ASSIGN),
    Stem::right(BINARY, 0, OR),
    Stem::right(BINARY, 0, EQ),
    Stem::right(BINARY, 0, SUB),
    Stem::one(UNARY, 0, 2),
    Stem::right(RANGE, 0, 0),
    Stem::new(RANGE, 0, 0, [Fill::Nothing, Fill::Hole]),
    Stem::one(RETURN, 0, 0),
    Stem::one(LET, 0, 0),
    Stem::one(GROUP, 0, 0),
];
