//! Edits of open sheets and previews of them, in both callee orders: any nodes, second trees and
//! rows, damaged ones among them, and buffers around what the result needs; and sheets that are
//! carried to our order.

use super::*;
use model::edit::{carried, lent, over, reply, Asked, Lengths, CARRIED};
use model::generate::edits::{self, Edit, Run, FAULTS, OF_A_TREE};
use tezhukor::boundary::edits as boundary_edits;
use tezhukor::text::Names;
use tezhukor::{CalleeOrder, OpenSheet, Row, Sight};

fn print([edits, previews]: &[Tally; 2], name: &str) {
    edits.print(&format!("{name}: edits"));
    previews.print(&format!("{name}: previews"));
}

/// The rows of a result in the callee order with a number.
fn rows(result: &NodeTable, order: u16) -> Vec<u16> {
    let count = usize::from(result.count);
    let mut rows = vec![0; ROW_CELLS * count];
    let NodeTable { context, count, cells } = result;
    assert_eq!(decide_by_order(order, *context, *count, cells, &mut rows), 0);
    rows
}

/// What the sheet is beside its table and its rows.
fn header(asked: &Asked) -> boundary_edits::Sheet {
    let NodeTable { context, count, .. } = asked.sheet;
    boundary_edits::Sheet { context, count, order: asked.order }
}

/// What is edited with.
fn second(asked: &Asked) -> boundary_edits::Edit<'_> {
    let NodeTable { context, count, cells } = &asked.second;
    boundary_edits::Edit { node: asked.node, context: *context, count: *count, table: cells }
}

/// Edits a sheet, and looks before: the replies, and every cell that is lent.
fn edit(edit: &Edit, [edits, previews]: &mut [Tally; 2]) {
    edit_in_place(&edit.asked, edits);
    preview(edit, previews);
    carry(&edit.asked, &mut Tally::default());
}

/// Carries the sheet.
fn carry(asked: &Asked, tally: &mut Tally) {
    let mut rows = asked.rows.clone();
    let done = boundary_edits::carry(header(asked), &asked.sheet.cells, &mut rows);
    let meant = carried(&asked.sheet, rows.len());
    assert_eq!(done, meant, "{asked:?}");
    let wanted = match (meant, asked.order) {
        (CARRIED, 0) => over(&self::rows(&asked.sheet, 1), asked.rows.clone()),
        _ => asked.rows.clone(),
    };
    assert_eq!(rows, wanted, "{asked:?}");
    tally.count((meant / REFUSAL_UNIT) as u16);
}

/// Looks before the edit.
fn preview(Edit { asked, lent: lengths }: &Edit, tally: &mut Tally) {
    let meant = lent(asked.result(), &[asked.lengths(), *lengths]);
    let [mut table, mut rows] = [Lent::new(lengths.table), Lent::new(lengths.rows)];
    let result = [table.lend(lengths.table), rows.lend(lengths.rows)];
    let own = [&asked.sheet.cells[..], &asked.rows];
    let done = boundary_edits::preview(header(asked), own, second(asked), result);
    assert_eq!(done, reply(&meant), "{asked:?}");
    let wanted = meant.as_ref().map_or(Vec::new(), |result| result.cells.clone());
    holds(table, &wanted);
    holds(rows, &meant.as_ref().map_or(Vec::new(), |result| self::rows(result, asked.order)));
    tally.count(meant.err().unwrap_or(0));
}

fn edit_in_place(asked: &Asked, tally: &mut Tally) {
    let meant = lent(asked.result(), &[asked.lengths()]);
    let buffers = [asked.sheet.cells.clone(), asked.rows.clone()];
    let [mut table, mut rows] = buffers.clone();
    let done = boundary_edits::edit(header(asked), &mut table, &mut rows, second(asked));
    assert_eq!(done, reply(&meant), "{asked:?}");
    let wanted = match &meant {
        Ok(result) => {
            let [table, own] = buffers;
            [over(&result.cells, table), over(&self::rows(result, asked.order), own)]
        }
        Err(_) => buffers,
    };
    assert_eq!([table, rows], wanted, "{asked:?}");
    tally.count(meant.err().unwrap_or(0));
}

#[test]
fn any_edits() {
    let tallies = &mut <[Tally; 2]>::default();
    for index in 0..times() / 8 {
        edits::edits(71, index).iter().for_each(|one| edit(one, tallies));
    }
    print(tallies, "sheets");
}

#[test]
fn large_edits() {
    let tallies = &mut <[Tally; 2]>::default();
    for index in 0..times() / 20 {
        edit(&edits::large(72, index), tallies);
    }
    print(tallies, "large sheets");
}

/// Sheets and second trees that are damaged anywhere, and lengths that fit or not.
#[test]
fn damaged_edits() {
    let tallies = &mut <[Tally; 2]>::default();
    for index in 0..times() {
        let dice = &mut Dice::new(73, index);
        let mut tree = |seed| {
            let tree = Family::Mixed.tree(seed, dice.below(1 << 20) as u64);
            if dice.percent(50) {
                damaged_table(&tree, dice)
            } else {
                tree
            }
        };
        let (sheet, second) = (tree(74), tree(75));
        let count = usize::from(sheet.count.min(5_000));
        let node = dice.between(0, count + 1) as u16;
        let order = edits::order(dice);
        let mut asked = Asked { sheet, order, rows: Vec::new(), node, second };
        let needed = Lengths::of(asked.result().map_or(count as u16, |result| result.count));
        let more = needed.table.saturating_sub(asked.sheet.cells.len());
        if asked.result().is_ok() && dice.percent(80) {
            asked.sheet.cells.extend(vec![7; around(more, dice)]);
        }
        asked.rows = (0..around(needed.rows, dice)).map(|_| dice.below(65_536) as u16).collect();
        let near = Lengths { table: around(needed.table, dice), rows: around(needed.rows, dice) };
        edit(&Edit { asked, lent: near }, tallies);
    }
    print(tallies, "damaged sheets");
}

/// What comes and goes are pairs of their texts, and all others stay.
fn see(sight: &Sight) {
    let Sight { before, after, come, go } = sight;
    assert_eq!(before.pairs().len() - go.len(), after.pairs().len() - come.len());
    for (text, pairs) in [(before, go), (after, come)] {
        for pair in pairs {
            assert!(text.pairs().contains(pair));
            let bytes = text.as_str().as_bytes();
            assert_eq!([bytes[pair.open], bytes[pair.close]], *b"()");
        }
    }
}

/// Each refusal together with each later one.
#[test]
fn every_refusal_before_the_later_ones() {
    let tallies = &mut <[Tally; 2]>::default();
    let ways = |fault: usize| (0..FAULTS[fault].1).map(move |way| (fault, way));
    for first in (0..FAULTS.len()).flat_map(ways) {
        let dice = &mut Dice::new(76, first.0 as u64);
        for later in (first.0..FAULTS.len()).flat_map(ways) {
            let faults = if later == first { vec![first] } else { vec![first, later] };
            if later == first || later.0 > first.0 {
                edit(&edits::faulty(&faults, dice), tallies);
            }
        }
    }
    print(tallies, "refusals before later ones");
}

/// Each refusal of carrying with each later one and with too few rows, in both orders.
#[test]
fn carried_refusals() {
    let tally = &mut Tally::default();
    let ways = |fault: usize| (0..FAULTS[fault].1).map(move |way| (fault, way));
    for first in (0..OF_A_TREE).flat_map(ways) {
        let dice = &mut Dice::new(78, first.0 as u64);
        let later = (first.0 + 1..OF_A_TREE).flat_map(ways);
        for faults in later.map(|later| vec![first, later]).chain([vec![first], vec![]]) {
            for length in [0, ROW_CELLS * 14 - 1, ROW_CELLS * 14, 70_000] {
                let sheet = edits::faulty_sheet(&faults, dice);
                let rows = (0..length).map(|_| dice.below(65_536) as u16).collect();
                let (order, second) = (edits::order(dice), sheet.clone());
                carry(&Asked { sheet, order, rows, node: 1, second }, tally);
            }
        }
    }
    tally.print("sheets carried");
}

/// Noise for rows.
fn noise(dice: &mut Dice, count: u16) -> Vec<Row> {
    let row = |_| Row::of_cells(&[(); ROW_CELLS].map(|()| dice.below(65_536) as u16));
    (0..count).map(row).collect()
}

/// Runs of edits on one sheet, the rows of which are handed in as they are or as noise; and
/// the same by [`OpenSheet`]: one that is opened now, and one that holds the crate's order
/// until it is carried halfway, beginning with noise.
#[test]
fn runs_of_edits() {
    let tallies = &mut <[Tally; 2]>::default();
    for index in 0..(times() / 100).max(4) {
        let run = Run::new(77, index);
        let mut sheet = run.sheet.clone();
        let mut open = OpenSheet::from(tree(&sheet));
        assert_eq!(open.order(), CalleeOrder::Ours);
        let rows_now = noise(&mut Dice::new(79, index), sheet.count);
        let mut older = OpenSheet::resume(tree(&sheet), &rows_now, CalleeOrder::Crate);
        assert_eq!((older.tree(), older.rows()), (open.tree(), rows_now));
        for step in 0..60 {
            if step == 30 {
                older.carry();
                assert_eq!((older.tree(), older.rows()), (open.tree(), open.rows()));
            }
            let order = older.order();
            let one = run.edit(step, order, &sheet, &rows(&sheet, order.number()));
            edit(&one, tallies);
            let Edit { asked, .. } = one;
            let second = tree(&asked.second);
            let meant = asked.result();
            sheet = meant.clone().unwrap_or(sheet);
            for open in [&mut open, &mut older] {
                let before = open.rows();
                let preview = open.preview(asked.node, &second);
                let edited = open.edit(asked.node, &second);
                let wanted = meant.as_ref().map(|_| ()).map_err(|r| *r);
                assert_eq!(edited.map_err(|r| r.number()), wanted);
                assert_eq!(open.tree(), tree(&sheet));
                let cells = open.rows().into_iter().flat_map(Row::cells);
                match edited {
                    Ok(()) => assert!(cells.eq(rows(&sheet, open.order().number()))),
                    Err(_) => assert_eq!(open.rows(), before),
                }
                assert_eq!(preview.as_ref().map(|_| ()), edited.as_ref().map(|_| ()));
                if let Ok(preview) = preview {
                    assert_eq!((preview.tree(), preview.rows()), (&open.tree(), &open.rows()[..]));
                    see(&preview.sight(&Names::default()));
                }
            }
        }
        // Carried again it stays as it is, whatever its rows are, and saved it has our order.
        let rows_now = noise(&mut Dice::new(80, index), sheet.count);
        let mut same = OpenSheet::resume(tree(&sheet), &rows_now, CalleeOrder::Ours);
        same.carry();
        assert_eq!((same.tree(), same.rows()), (tree(&sheet), rows_now));
        let anew = OpenSheet::load(&older.tree().to_file()).expect("a file");
        assert_eq!(anew.order(), CalleeOrder::Ours);
    }
    print(tallies, "runs of 60");
}
