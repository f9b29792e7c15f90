//! Operators that are not chosen yet: any entries of any tree, in both callee orders, damaged
//! tables among them, and every refusal before the later ones.

use super::*;
use model::generate::open::{self, asked, faulty, FAULTS};
use model::open::{choices, each_with_each, Asked, Entry};
use tezhukor::boundary::edits::{decide_open, Sheet};
use tezhukor::build::Op;
use tezhukor::{Answer, CalleeOrder, OpenSheet, Ops};

/// The answers over all choices, by the library's rows for each.
fn answers(asked: &Asked) -> Vec<u16> {
    asked.answers(choices(&asked.entries()), |table| {
        let count = usize::from(table.count);
        let mut rows = vec![0; ROW_CELLS * count];
        let NodeTable { context, count, cells } = table;
        let reply = decide_by_order(asked.order, *context, *count, cells, &mut rows);
        assert_eq!(reply, 0);
        rows.chunks_exact(ROW_CELLS).map(|row| row[0] & 1 == 1).collect()
    })
}

/// How many choices there are.
fn size(asked: &Asked) -> usize {
    let width = |entry: &Entry| usize::from(entry.highest - entry.lowest) + 1;
    asked.entries().iter().map(width).product()
}

/// Asks, and looks at every cell that is lent.
fn ask(asked: &Asked, tally: &mut Tally) {
    let mut answers_lent = Lent::new(asked.lent);
    let NodeTable { context, count, cells } = &asked.table;
    let sheet = Sheet { context: *context, count: *count, order: asked.order };
    let lent = answers_lent.lend(asked.lent);
    let reply = decide_open(sheet, cells, asked.entered, &asked.entries, lent);
    let refusal = asked.refusal();
    assert_eq!(reply, refusal, "{asked:?}");
    holds(answers_lent, &if refusal == 0 { answers(asked) } else { Vec::new() });
    tally.count(refusal);
}

#[test]
fn any_operators() {
    let tally = &mut Tally::default();
    for index in 0..times() {
        let dice = &mut Dice::new(92, index);
        let family = [Family::Mixed, Family::Callees][(index % 2) as usize];
        let mut table = family.tree(93, index / 2);
        if dice.percent(10) {
            table = damaged_table(&table, dice);
        }
        if accept::refusal(&table) == 0 && table.count <= 60 {
            let mut one = asked(table, dice);
            one.lent = around(one.lent, dice);
            if size(&one) <= 300 {
                ask(&one, tally);
            }
        } else {
            ask(&Asked { lent: 5_000, ..Asked::new(table, 1, &[]) }, tally);
        }
    }
    tally.print("operators left open");
}

/// Without entries the answers are the rows' outer pairs.
#[test]
fn no_entries() {
    for index in 0..times() / 4 {
        let table = Family::Mixed.tree(94, index);
        let told = tree(&table).with_open(&[]).expect("answers");
        let pairs = pairs(&table).into_iter();
        let meant = pairs.map(|pair| if pair { Answer::Always } else { Answer::Never });
        assert!(told.into_iter().eq(meant));
    }
}

/// Each refusal together with each later one.
#[test]
fn every_refusal_of_entries_before_the_later_ones() {
    let tally = &mut Tally::default();
    let ways = |number: usize| (0..open::fault(number).1).map(move |way| (number, way));
    for first in (0..FAULTS).flat_map(ways) {
        let dice = &mut Dice::new(95, first.0 as u64);
        ask(&faulty(&[first], dice), tally);
        for later in (first.0 + 1..FAULTS).flat_map(ways) {
            ask(&faulty(&[first, later], dice), tally);
        }
    }
    tally.print("refusals of entries before later ones");
}

/// Any operators, few of them, or none.
fn any_ops(dice: &mut Dice) -> Vec<Op> {
    (0..dice.pick(&[0, 1, 1, 2, 2, 3, 5])).map(|_| dice.pick(Op::ALL)).collect()
}

/// Sets that are no ranges: each choice of operators at all nodes, and no other; in the order of
/// the sheet.
#[test]
fn sets_of_operators() {
    let mut depends = 0;
    for index in 0..times() / 4 {
        let dice = &mut Dice::new(96, index);
        let table = [Family::Plain, Family::Scans][(index % 2) as usize].tree(97, index);
        let nodes = open::binaries(&table, dice);
        if table.count > 40 || nodes.is_empty() {
            continue;
        }
        let entered = dice.between(1, nodes.len().min(MOST_ENTRIES));
        let sets: Vec<Vec<Op>> = (0..entered).map(|_| any_ops(dice)).collect();
        let ops = sets.iter().map(|set| Ops::from_iter(set.iter().copied()));
        let open: Vec<(u16, Ops)> = nodes.iter().copied().zip(ops).collect();
        let order = dice.pick(&CalleeOrder::ALL);
        let sheet = OpenSheet::resume(tree(&table), &[], order);
        let told = sheet.with_open(&open);
        if order == CalleeOrder::Ours {
            assert_eq!(tree(&table).with_open(&open), told);
        }
        if sets.iter().any(Vec::is_empty) {
            assert_eq!(told, Err(Refusal::OpenRange));
            continue;
        }
        // One entry for each operator of each set, all with all.
        let mut met = vec![[false; 2]; table.count.into()];
        let entries = nodes.iter().zip(&sets).map(|(&node, set)| -> Vec<Entry> {
            let entry = |op: &Op| Entry { node, lowest: op.number(), highest: op.number() };
            set.iter().map(entry).collect()
        });
        for entries in each_with_each(entries) {
            let one = Asked::new(table.clone(), order.number(), &entries);
            for (met, answer) in met.iter_mut().zip(answers(&one)) {
                met[usize::from(answer)] = true;
            }
        }
        let told = told.expect("answers");
        depends += told.iter().filter(|&&answer| answer == Answer::Depends).count() as u64;
        assert!(told.into_iter().eq(met.into_iter().map(Answer::of)), "{table:?}");
    }
    assert!(depends > times() / 100, "{depends} depend");
    let [sum, four] = [Op::Add..=Op::Sub, Op::Add..=Op::Add].map(Ops::from);
    let mut trees = (0..).map(|index| Family::Plain.tree(97, index));
    let has_binary = |table: &NodeTable| !open::binaries(table, &mut Dice::new(98, 0)).is_empty();
    let table = trees.find(has_binary).expect("a tree with a Binary");
    let backwards = Ops::from(std::ops::RangeInclusive::new(Op::Sub, Op::Add));
    let refused = |open: &[(u16, Ops)]| tree(&table).with_open(open).expect_err("a refusal");
    assert_eq!(refused(&vec![(1, four); 4]), Refusal::Entries);
    assert_eq!(refused(&[(0, sum)]), Refusal::OpenNode);
    let sums = open::binaries(&table, &mut Dice::new(98, 0));
    assert_eq!(refused(&[(sums[0], backwards)]), Refusal::OpenRange);
}
