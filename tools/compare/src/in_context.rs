//! Questions about an expression in a context.

use model::generate::Dice;
use oracle::direct::{context_of_root, Context, Subject};
use tezhukor::boundary::questions::{self, InContext, Place};

/// What a question is put with. All but the context are for scan_right.
#[derive(Copy, Clone, Debug)]
pub struct Case {
    pub context: Context,
    pub precedence: u16,
    pub fail_offset: u8,
    pub bailout_offset: u8,
}

/// A function of fixup.rs, on both sides.
pub struct Question {
    /// Its name in the crate.
    pub name: &'static str,
    pub theirs: fn(&Subject, &Case) -> u16,
    pub ours: fn(Place, &Case) -> u16,
}

pub const QUESTIONS: [Question; 6] = [
    Question {
        name: "parenthesize",
        theirs: |subject, case| subject.parenthesize(case.context).into(),
        ours: |place, case| questions::answer_in(InContext::Parenthesize, case.context, place),
    },
    Question {
        name: "FixupContext::precedence",
        theirs: |subject, case| subject.precedence(case.context),
        ours: |place, case| questions::answer_in(InContext::Precedence, case.context, place),
    },
    Question {
        name: "scan_left",
        theirs: |subject, case| subject.scan_left(case.context).into(),
        ours: |place, case| questions::answer_in(InContext::ScanLeft, case.context, place),
    },
    Question {
        name: "scan_right",
        theirs: |subject, case| {
            let Case { context, precedence, fail_offset, bailout_offset } = *case;
            subject.scan_right(context, precedence, fail_offset, bailout_offset).into()
        },
        ours: |place, case| {
            let Case { context, precedence, fail_offset, bailout_offset } = *case;
            questions::scan_right(
                context,
                precedence,
                fail_offset.into(),
                bailout_offset.into(),
                place,
            )
        },
    },
    Question {
        name: "leftmost_subexpression_precedence",
        theirs: |subject, case| subject.leftmost_precedence(case.context),
        ours: |place, case| questions::answer_in(InContext::LeftPrecedence, case.context, place),
    },
    Question {
        name: "rightmost_subexpression_precedence",
        theirs: |subject, case| subject.rightmost_precedence(case.context),
        ours: |place, case| questions::answer_in(InContext::RightPrecedence, case.context, place),
    },
];

/// How many contexts of any content each expression is asked in.
const ANY: usize = 8;

/// The contexts that an expression is asked in: the four of a root, and some of
/// any content. Half of these have few flags.
pub struct Cases {
    roots: [Context; 4],
    met: Vec<bool>,
    /// scan_right's precedences and offsets.
    arguments_met: [[[bool; 3]; 4]; 16],
}

impl Cases {
    pub fn new() -> Self {
        let roots = [0, 1, 2, 3].map(context_of_root);
        Cases { roots, met: vec![false; 1 << 18], arguments_met: Default::default() }
    }

    /// The cases for one expression.
    pub fn draw(&mut self, dice: &mut Dice) -> [Case; 4 + ANY] {
        std::array::from_fn(|at| {
            let context = self.roots.get(at).copied().unwrap_or_else(|| any(at % 2 == 0, dice));
            let [previous, next, flags] = context.map(usize::from);
            self.met[previous << 14 | next << 10 | flags] = true;
            let precedence = dice.below(16) as u16;
            let (fail_offset, bailout_offset) = (dice.below(4) as u8, dice.below(3) as u8);
            self.arguments_met[usize::from(precedence)][usize::from(fail_offset)]
                [usize::from(bailout_offset)] = true;
            Case { context, precedence, fail_offset, bailout_offset }
        })
    }

    /// How many of the 262,144 contexts have been drawn so far.
    pub fn met(&self) -> usize {
        self.met.iter().filter(|&&met| met).count()
    }

    /// How many of the 16 x 4 x 3 precedences, fail offsets and bailout offsets
    /// have been drawn so far.
    pub fn arguments_met(&self) -> usize {
        self.arguments_met.iter().flatten().flatten().filter(|&&met| met).count()
    }
}

/// A context of any content, reachable or not.
pub fn any(few_flags: bool, dice: &mut Dice) -> Context {
    let mut number = || dice.below(1 << 16) as u16;
    let (operators, mut flags) = (number(), number());
    if few_flags {
        flags &= number() & number();
    }
    [operators & 15, operators >> 4 & 15, flags & 1023]
}
