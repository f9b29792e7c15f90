//! Digests of the answers for many trees, by which `mutants` sees whether a
//! change of prettyplease's files shows.

use crate::answers::{answers, Answers, NodeAnswers};
use crate::direct::Subject;
use model::forms::Class;
use model::generate::{Dice, Family, SmallTrees};
use model::table::{self, NodeTable};

/// How many trees are asked.
#[derive(Copy, Clone, PartialEq, Eq, Debug)]
pub enum Extent {
    /// Some 80,000, few of the small ones.
    Quick,
    /// Some 8,000,000: all of the small ones but for three in four of `every`.
    Thorough,
}

/// The digests of one set of trees.
#[derive(Copy, Clone, PartialEq, Eq, Debug)]
pub struct Digest {
    pub trees: &'static str,
    /// Of all rows.
    pub rows: u64,
    /// Of the answers that need no context, or of those of [`crate::direct`].
    pub others: u64,
}

impl Digest {
    fn new(trees: &'static str) -> Self {
        Digest { trees, rows: 0xCBF2_9CE4_8422_2325, others: 0xCBF2_9CE4_8422_2325 }
    }

    fn add(&mut self, table: &NodeTable) {
        let Answers { nodes } = answers(table.context, table.count, &table.cells);
        for answers in nodes {
            match answers {
                NodeAnswers::Expression(answers) => {
                    answers.row.cells().iter().for_each(|&cell| mix(&mut self.rows, cell.into()));
                    mix(&mut self.others, answers.requires_semi_to_be_stmt.into());
                    mix(&mut self.others, answers.requires_comma_to_be_match_arm.into());
                    mix(&mut self.others, answers.expr_leading_label.into());
                    mix(&mut self.others, answers.expr_trailing_brace.into());
                    mix(&mut self.others, answers.precedence_of.into());
                }
                NodeAnswers::Type(answers) => {
                    mix(&mut self.others, answers.trailing_unparameterized_path.into());
                    mix(&mut self.others, answers.type_trailing_brace.into());
                }
                NodeAnswers::Link => {}
            }
        }
    }
}

fn mix(digest: &mut u64, value: u64) {
    *digest = (*digest ^ value).wrapping_mul(0x0000_0100_0000_01B3).rotate_left(7);
}

/// The digests of all sets of trees.
pub fn digests(extent: Extent) -> Vec<Digest> {
    let (times, stride) = match extent {
        Extent::Quick => (1, 160),
        Extent::Thorough => (20, 1),
    };
    let mut digests = Vec::new();
    for (family, trees) in [
        (Family::Random, 4_000),
        (Family::Scans, 6_000),
        (Family::Spines, 20_640),
        (Family::Plain, 2_000),
    ] {
        let mut digest = Digest::new(family.name());
        (0..times * trees).for_each(|index| digest.add(&family.tree(7, index)));
        digests.push(digest);
    }
    for (name, trees, stride) in [
        ("every", SmallTrees::every_label(3), 4 * stride),
        ("representative", SmallTrees::representative(4), stride),
        ("narrow", SmallTrees::narrow(6), stride),
    ] {
        let mut digest = Digest::new(name);
        for index in (0..trees.len()).step_by(stride) {
            let mut table = trees.tree(0, index);
            for context in 0..4 {
                table.context = context;
                digest.add(&table);
            }
        }
        digests.push(digest);
    }
    let mut direct = Digest::new("direct");
    (0..times * 30_000).for_each(|index| add_direct(&mut direct, index));
    digests.push(direct);
    digests
}

/// Asks single functions about some node, in contexts reachable or not.
fn add_direct(digest: &mut Digest, index: u64) {
    let family = [Family::Scans, Family::Spines, Family::Random][(index % 3) as usize];
    let table = family.tree(8, index / 3);
    let dice = &mut Dice::new(9, index);
    if table.count > 20 {
        return;
    }
    let node = 1 + dice.below(table.count as usize) as u16;
    if table::class(&table.cells, node) != Class::Expression {
        return;
    }
    let subject = Subject::new(&table.cells, table.count, node);
    for _ in 0..6 {
        let flags = (0..10).fold(0, |flags, bit| flags | u16::from(dice.percent(25)) << bit);
        let context = [dice.below(16) as u16, dice.below(16) as u16, flags];
        let precedence = dice.below(16) as u16;
        let (fail, bailout) = (dice.below(4) as u8, dice.below(3) as u8);
        let bits = [dice.percent(50), dice.percent(50)];
        let answers = [
            subject.scan_right(context, precedence, fail, bailout).into(),
            subject.scan_left(context).into(),
            subject.leftmost_precedence(context),
            subject.rightmost_precedence(context),
            subject.precedence(context),
            subject.parenthesize(context).into(),
        ];
        answers.iter().for_each(|&answer| mix(&mut digest.others, answer.into()));
        for (precedence, context) in [
            subject.leftmost_with_operator(context, bits[0], bits[1], precedence),
            subject.leftmost_with_dot(context),
            subject.rightmost(context, precedence),
        ] {
            mix(&mut digest.others, precedence.into());
            context.iter().for_each(|&number| mix(&mut digest.others, number.into()));
        }
    }
}
