//! Operators that are not chosen yet.

use crate::boundary::edits::{self, Sheet};
use crate::build::Op;
use crate::{OpenSheet, Refusal, Tree};
pub use model::open::Answer;
use model::open::{each_with_each, Entry};
use model::sizes::{ENTRY_CELLS, MOST_ENTRIES};
use std::ops::RangeInclusive;

/// The operators that may be chosen for a Binary: a range, or any set.
///
/// ```
/// use tezhukor::{build::Op, Ops};
/// let sums = Ops::from(Op::Add..=Op::Sub);
/// assert_eq!(Ops::from_iter([Op::Sub, Op::Add]), sums);
/// assert_eq!(Ops::from_iter([Op::Lt, Op::Add, Op::Sub]).ranges().len(), 2);
/// ```
#[derive(Clone, PartialEq, Eq, Debug)]
pub struct Ops {
    /// The lowest and the highest of each, in order and apart.
    ranges: Vec<RangeInclusive<Op>>,
}

impl Ops {
    /// The fewest ranges that it is made of, none for a set of nothing.
    pub fn ranges(&self) -> &[RangeInclusive<Op>] {
        &self.ranges
    }

    /// All operators of it, by number.
    pub fn iter(&self) -> impl Iterator<Item = Op> + '_ {
        Op::ALL.iter().copied().filter(|op| self.ranges.iter().any(|range| range.contains(op)))
    }
}

/// A range whose end is below its start is refused where it is asked.
impl From<RangeInclusive<Op>> for Ops {
    fn from(range: RangeInclusive<Op>) -> Ops {
        Ops { ranges: vec![range] }
    }
}

impl FromIterator<Op> for Ops {
    fn from_iter<I: IntoIterator<Item = Op>>(ops: I) -> Ops {
        let mut ops: Vec<Op> = ops.into_iter().collect();
        ops.sort_unstable();
        let mut ranges: Vec<RangeInclusive<Op>> = Vec::new();
        for op in ops {
            match ranges.last_mut() {
                Some(range) if op.number() <= range.end().number() + 1 => {
                    *range = *range.start()..=op;
                }
                _ => ranges.push(op..=op),
            }
        }
        Ops { ranges }
    }
}

/// The cells of the entries of one call for each choice of a range at each node: together they
/// meet each choice of operators. Of too many nodes, which are refused whatever the ranges are,
/// the first only.
fn calls(open: &[(u16, Ops)]) -> Vec<Vec<[u16; ENTRY_CELLS]>> {
    let most = if open.len() > MOST_ENTRIES { 1 } else { Op::ALL.len() };
    each_with_each(open.iter().map(|&(node, ref ops)| {
        let ends = ops.ranges.iter().map(|range| [*range.start(), *range.end()].map(Op::number));
        // Nothing can be chosen from nothing: a range that is refused.
        let ends = ends.chain(ops.ranges.is_empty().then_some([1, 0])).take(most);
        ends.map(|[lowest, highest]| Entry { node, lowest, highest }.cells()).collect()
    }))
}

/// The answers of all nodes of an accepted table, node 1 first.
fn answers(sheet: Sheet, table: &[u16], open: &[(u16, Ops)]) -> Result<Vec<Answer>, Refusal> {
    let entered = u16::try_from(open.len()).map_err(|_| Refusal::Entries)?;
    let mut joined: Option<Vec<Answer>> = None;
    for entries in calls(open) {
        let mut cells = vec![0; sheet.count.into()];
        let reply = edits::decide_open(sheet, table, entered, &entries.concat(), &mut cells);
        if let Some(refusal) = Refusal::numbered(reply) {
            return Err(refusal);
        }
        // The library's contract allows no other cells.
        let answer =
            |cell: &u16| Answer::ALL.get(usize::from(*cell)).copied().unwrap_or(Answer::Depends);
        let told: Vec<Answer> = cells.iter().map(answer).collect();
        joined = Some(match joined {
            None => told,
            Some(before) => before.iter().zip(told).map(|(one, other)| one.joined(other)).collect(),
        });
    }
    Ok(joined.unwrap_or_default())
}

impl Tree {
    /// Of each node, node 1 first, whether it has an outer pair for no choice, for every choice
    /// or for some, where the operators of up to three Binaries are not chosen yet. The operator
    /// that the tree holds there plays no part. Types and list links never have one.
    ///
    /// Refused are more than three ([`Refusal::Entries`]), a node that is no Binary or is named
    /// twice ([`Refusal::OpenNode`]), and a range that has no operator ([`Refusal::OpenRange`]).
    /// A set that is no range is asked range by range; as choices are made at all nodes
    /// together, each range of one node is asked with each of another, and what all agree on
    /// stands.
    ///
    /// ```
    /// use tezhukor::build::{binary, path, Context, Op};
    /// use tezhukor::{Answer, Ops};
    /// # fn main() -> Result<(), Box<dyn std::error::Error>> {
    /// // (a + b) ? c
    /// let sum = binary(Op::Add, path(1), path(2));
    /// let tree = binary(Op::Add, sum, path(3)).tree(Context::None)?;
    /// let pair = |ops| Ok::<_, tezhukor::Refusal>(tree.with_open(&[(1, ops)])?[1]);
    /// assert_eq!(pair(Ops::from(Op::Add..=Op::Sub))?, Answer::Never);
    /// assert_eq!(pair(Ops::from(Op::Mul..=Op::Rem))?, Answer::Always);
    /// assert_eq!(pair(Ops::from_iter([Op::Sub, Op::Rem]))?, Answer::Depends);
    /// # Ok(())
    /// # }
    /// ```
    pub fn with_open(&self, open: &[(u16, Ops)]) -> Result<Vec<Answer>, Refusal> {
        let order = crate::CalleeOrder::Ours.number();
        let sheet = Sheet { context: self.context, count: self.count(), order };
        answers(sheet, &self.cells, open)
    }
}

impl OpenSheet {
    /// As [`Tree::with_open`], in the callee order that the sheet holds.
    pub fn with_open(&self, open: &[(u16, Ops)]) -> Result<Vec<Answer>, Refusal> {
        answers(self.header(), &self.table, open)
    }
}
