//! What document 02's Paper 12 says of a tree some of whose operators are not chosen yet, once
//! it is known where the pairs of a tree stand.

use crate::accept;
use crate::forms::BINARY;
use crate::sizes::{ENTRY_CELLS, LAST_BINARY, MOST_ENTRIES, NODE_CELLS};
use crate::table::{node, NodeTable, DETAIL};

/// A Binary whose operator is one from the lowest to the highest.
#[derive(Copy, Clone, PartialEq, Eq, Debug)]
pub struct Entry {
    pub node: u16,
    pub lowest: u16,
    pub highest: u16,
}

impl Entry {
    /// Its cells.
    pub fn cells(self) -> [u16; ENTRY_CELLS] {
        [self.node, self.lowest, self.highest]
    }
}

/// What is asked: the table, which may have cells past its last node, the number of its callee
/// order, the cells of entries and how many of these count, and how many cells are lent for
/// answers.
#[derive(Clone, Debug)]
pub struct Asked {
    pub table: NodeTable,
    pub order: u16,
    pub entered: u16,
    pub entries: Vec<u16>,
    pub lent: usize,
}

impl Asked {
    /// With just enough room.
    pub fn new(table: NodeTable, order: u16, entries: &[Entry]) -> Asked {
        let lent = table.count.into();
        let cells = entries.iter().flat_map(|entry| entry.cells()).collect();
        Asked { table, order, entered: entries.len() as u16, entries: cells, lent }
    }

    /// The entries that count, of those that have cells.
    pub fn entries(&self) -> Vec<Entry> {
        let cells = self.entries.chunks_exact(ENTRY_CELLS).take(self.entered.into());
        cells.map(|cells| Entry { node: cells[0], lowest: cells[1], highest: cells[2] }).collect()
    }

    /// The first refusal that applies, 0 if none does.
    pub fn refusal(&self) -> u16 {
        let NodeTable { count, cells, .. } = &self.table;
        let entries = self.entries();
        let is_no_binary = |entry: &Entry| {
            !(1..=*count).contains(&entry.node) || node(cells, entry.node).form != BINARY
        };
        let times = |node: u16| entries.iter().filter(|entry| entry.node == node).count();
        match accept::refusal(&self.table) {
            0 => {}
            refusal => return refusal,
        }
        let is_short = self.entries.len() < ENTRY_CELLS * usize::from(self.entered);
        if self.lent < usize::from(*count) || is_short {
            12
        } else if usize::from(self.entered) > MOST_ENTRIES {
            20
        } else if entries.iter().any(|entry| is_no_binary(entry) || times(entry.node) > 1) {
            21
        } else if entries
            .iter()
            .any(|entry| entry.lowest > entry.highest || entry.highest > LAST_BINARY)
        {
            22
        } else {
            0
        }
    }

    /// The answers for all nodes over some choices, if the nodes of a table have those outer
    /// pairs; 0 for types and links, which have none.
    pub fn answers(
        &self,
        choices: impl IntoIterator<Item = Vec<u16>>,
        mut pairs: impl FnMut(&NodeTable) -> Vec<bool>,
    ) -> Vec<u16> {
        let entries = self.entries();
        let mut met = vec![[false; 2]; self.table.count.into()];
        for choice in choices {
            for (met, pair) in met.iter_mut().zip(pairs(&self.chosen(&entries, &choice))) {
                met[usize::from(pair)] = true;
            }
        }
        met.into_iter().map(|met| Answer::of(met).number()).collect()
    }

    /// The table with chosen operators.
    fn chosen(&self, entries: &[Entry], choice: &[u16]) -> NodeTable {
        let mut table = self.table.clone();
        for (entry, &operator) in entries.iter().zip(choice) {
            table.cells[NODE_CELLS * (usize::from(entry.node) - 1) + DETAIL] = operator;
        }
        table
    }
}

/// Whether an expression has an outer pair.
#[derive(Copy, Clone, PartialEq, Eq, Hash, Debug)]
pub enum Answer {
    /// For no choice.
    Never,
    /// For every choice.
    Always,
    /// For one choice, and for another not.
    Depends,
}

impl Answer {
    pub const ALL: [Answer; 3] = [Answer::Never, Answer::Always, Answer::Depends];

    /// Its number in a cell.
    pub const fn number(self) -> u16 {
        self as u16
    }

    /// By whether some choice gives no pair, and some choice one.
    pub fn of(met: [bool; 2]) -> Answer {
        match met {
            [true, true] => Answer::Depends,
            [_, true] => Answer::Always,
            [_, false] => Answer::Never,
        }
    }

    /// Over all choices of both.
    pub fn joined(self, other: Answer) -> Answer {
        match self == other {
            true => self,
            false => Answer::Depends,
        }
    }
}

/// All choices: an operator for each entry, each with each.
pub fn choices(entries: &[Entry]) -> Vec<Vec<u16>> {
    each_with_each(entries.iter().map(|entry| (entry.lowest..=entry.highest).collect()))
}

/// The same with one operator of each class that an entry meets.
pub fn choices_of_classes(entries: &[Entry]) -> Vec<Vec<u16>> {
    each_with_each(entries.iter().map(|entry| {
        let mut met = [false; CLASSES];
        let is_new = |operator: &u16| !std::mem::replace(&mut met[class(*operator)], true);
        (entry.lowest..=entry.highest).filter(is_new).collect()
    }))
}

/// One thing of each set, each with each of the others.
pub fn each_with_each<T: Clone>(sets: impl IntoIterator<Item = Vec<T>>) -> Vec<Vec<T>> {
    let with = |choices: Vec<Vec<T>>, set: Vec<T>| {
        let longer = |choice: &Vec<T>| {
            let with = |one: &T| [&choice[..], std::slice::from_ref(one)].concat();
            set.iter().map(with).collect::<Vec<_>>()
        };
        choices.iter().flat_map(longer).collect()
    };
    sets.into_iter().fold(vec![Vec::new()], with)
}

/// How many classes of operators there are.
pub const CLASSES: usize = 14;

/// The class of a Binary's operator. Those of one class have one level, and begin an expression
/// or generic arguments alike: `+`, `-`, `*`, `/ %`, `&&`, `||`, `^`, `&`, `|`, `<<`, `>>`, the
/// comparisons but `<`, `<`, and the assigning ones. They give the same rows everywhere.
pub fn class(operator: u16) -> usize {
    match operator {
        0..=3 => operator.into(),
        4..=11 => usize::from(operator) - 1,
        13 => 12,
        12 | 14..=17 => 11,
        _ => 13,
    }
}

#[cfg(test)]
mod tests {
    use super::*;

    #[test]
    fn classes() {
        let classes: Vec<usize> = (0..=LAST_BINARY).map(class).collect();
        let mut met = vec![0; CLASSES];
        classes.iter().for_each(|&class| met[class] += 1);
        assert_eq!(met, [1, 1, 1, 2, 1, 1, 1, 1, 1, 1, 1, 5, 1, 10]);
        let full = Entry { node: 1, lowest: 0, highest: LAST_BINARY };
        assert_eq!(choices(&[full]).len(), 28);
        assert_eq!(choices_of_classes(&[full; 3]).len(), 2_744);
        let sum = Entry { node: 1, lowest: 0, highest: 1 };
        assert_eq!(choices(&[sum, sum]), [[0, 0], [0, 1], [1, 0], [1, 1]]);
        assert_eq!(choices(&[]), [[]]);
    }
}
