//! Edits of open sheets in both callee orders: tezhukor_edit and tezhukor_preview beside the
//! model's result, numbered from the root on, and the crate's own rows of it, with its own test
//! of a callee or with ours; and sheets that tezhukor_carry carries to our order.

use model::edit::{carried, lent, over, reply, Asked, CARRIED};
use model::generate::edits::{self, Edit, Run, FAULTS, OF_A_TREE};
use model::generate::Dice;
use model::lent::Cell;
use model::sizes::{LAST_REFUSAL, REFUSAL_UNIT, ROW_CELLS};
use model::{CalleeOrder, NodeTable};
use oracle::rows_of;
use tezhukor::boundary::edits as ours;

/// How many edits a run has.
const RUN: u64 = 60;

/// How many sheets are taken for one run, for one large sheet, and for all refusals once.
const A_RUN: u64 = 50;
const A_LARGE_ONE: u64 = 20;
const ALL_FAULTS: u64 = 5_000;

/// Of so many differences all is told.
const TOLD: u64 = 20;

/// What was asked of one function.
#[derive(Default)]
struct Replies {
    by_refusal: [u64; LAST_REFUSAL as usize + 1],
    different: u64,
}

impl Replies {
    fn all(&self) -> u64 {
        self.by_refusal.iter().sum()
    }

    /// Counts what was done, and tells where it is not what was wanted.
    fn count(&mut self, asked: &Asked, done: Done, wanted: Done) {
        self.by_refusal[(wanted.reply / REFUSAL_UNIT) as usize] += 1;
        self.different += u64::from(done != wanted);
        if done != wanted && self.different <= TOLD {
            let (table, rows) = (done.table == wanted.table, done.rows == wanted.rows);
            println!(
                "reply {}, not {}, table as meant: {table}, rows as meant: {rows}: {asked:?}",
                done.reply, wanted.reply
            );
        }
    }

    fn print(&self, name: &str) {
        let replies: Vec<String> = (0..self.by_refusal.len())
            .filter(|&reply| self.by_refusal[reply] > 0)
            .map(|reply| format!("{reply}: {}", self.by_refusal[reply]))
            .collect();
        println!("{name} {}, by reply {}", self.all(), replies.join(", "));
        println!("  different {}", self.different);
    }
}

/// What came of all edits.
#[derive(Default)]
struct Tally {
    edits: Replies,
    previews: Replies,
    carries: Replies,
    /// Results of edits by the order of their sheets.
    by_order: [u64; 2],
    /// Results whose rows would be others in the other order.
    apart: u64,
    /// Rows of results, those of types and links included.
    rows: u64,
    grown: u64,
    shrunk: u64,
    most_nodes: u16,
    /// Rows that stay beside an edit in a run, within an index, an argument or a Paren, and
    /// how many of them changed in more than their number.
    sheltered: u64,
    changed: u64,
}

/// What a function did: its reply, and the table and the rows that it was lent.
#[derive(PartialEq, Eq)]
struct Done {
    reply: u32,
    table: Vec<u16>,
    rows: Vec<u16>,
}

impl Done {
    /// What must be done to a table and rows that are lent.
    fn meant(meant: &Result<NodeTable, u16>, rows: &[u16], buffers: [Vec<u16>; 2]) -> Done {
        let [table, lent_rows] = buffers;
        match meant {
            Err(_) => Done { reply: reply(meant), table, rows: lent_rows },
            Ok(result) => Done {
                reply: reply(meant),
                table: over(&result.cells, table),
                rows: over(rows, lent_rows),
            },
        }
    }
}

/// What the sheet is beside its table and its rows.
fn header(asked: &Asked) -> ours::Sheet {
    let NodeTable { context, count, .. } = asked.sheet;
    ours::Sheet { context, count, order: asked.order }
}

fn order(asked: &Asked) -> CalleeOrder {
    CalleeOrder::numbered(asked.order)
}

fn second(asked: &Asked) -> ours::Edit<'_> {
    let NodeTable { context, count, cells } = &asked.second;
    ours::Edit { node: asked.node, context: *context, count: *count, table: cells }
}

impl Tally {
    /// Edits and looks before, and gives the result with its rows where there is one.
    fn compare(&mut self, edit: &Edit) -> Option<(NodeTable, Vec<u16>)> {
        let Edit { asked, .. } = edit;
        let meant = lent(asked.result(), &[asked.lengths()]);
        let rows = meant.as_ref().map_or(Vec::new(), |result| rows_of(result, order(asked)));
        // What fits the preview's buffers as well is a result of the edit.
        let seen = lent(meant.clone(), &[edit.lent]);
        let buffers = lent_beside(edit);
        let wanted = Done::meant(&seen, &rows, buffers.clone());
        self.previews.count(asked, previewed(asked, buffers), wanted);
        let buffers = [asked.sheet.cells.clone(), asked.rows.clone()];
        let wanted = Done::meant(&meant, &rows, buffers);
        self.edits.count(asked, edited(asked), wanted);
        self.compare_carry(asked);
        let result = meant.ok()?;
        self.by_order[usize::from(order(asked).number())] += 1;
        let other = CalleeOrder::ALL[1 - usize::from(order(asked).number())];
        self.apart += u64::from(rows != rows_of(&result, other));
        self.rows += u64::from(result.count);
        self.grown += u64::from(result.count > asked.sheet.count);
        self.shrunk += u64::from(result.count < asked.sheet.count);
        self.most_nodes = self.most_nodes.max(result.count);
        Some((result, rows))
    }

    /// Carries the sheet of an edit: its rows become those of a fresh walk in our order if it
    /// holds the crate's, and are left as they are if it holds ours, whatever they are.
    fn compare_carry(&mut self, asked: &Asked) {
        let mut rows = asked.rows.clone();
        let reply = ours::carry(header(asked), &asked.sheet.cells, &mut rows);
        let wanted_reply = carried(&asked.sheet, rows.len());
        let wanted = match (wanted_reply, order(asked)) {
            (CARRIED, CalleeOrder::Crate) => {
                over(&rows_of(&asked.sheet, CalleeOrder::Ours), asked.rows.clone())
            }
            _ => asked.rows.clone(),
        };
        let wanted = Done { reply: wanted_reply, table: Vec::new(), rows: wanted };
        self.carries.count(asked, Done { reply, table: Vec::new(), rows }, wanted);
    }

    /// A run of edits of one sheet, which holds the crate's order in two runs of three and is
    /// carried to ours halfway; what comes then is as on a sheet opened in ours.
    fn compare_run(&mut self, seed: u64, index: u64) {
        let run = Run::new(seed, index);
        let mut order = if index % 3 == 0 { CalleeOrder::Ours } else { CalleeOrder::Crate };
        let (mut sheet, mut rows) = (run.sheet.clone(), rows_of(&run.sheet, order));
        for step in 0..RUN {
            if step == RUN / 2 && order == CalleeOrder::Crate {
                let mut edit = run.edit(step, order, &sheet, &rows);
                edit.asked.rows[..rows.len()].copy_from_slice(&rows);
                self.compare_carry(&edit.asked);
                order = CalleeOrder::Ours;
                rows = rows_of(&sheet, order);
            }
            let edit = run.edit(step, order, &sheet, &rows);
            if let Some((result, new)) = self.compare(&edit) {
                self.compare_sheltered(&edit.asked.sheltered(&result), &rows, &new);
                (sheet, rows) = (result, new);
            }
        }
    }

    /// The crate's rows before and after an edit.
    fn compare_sheltered(&mut self, nodes: &[[u16; 2]], before: &[u16], after: &[u16]) {
        let row = |rows: &[u16], node: u16| -> [u16; ROW_CELLS] {
            let cells = &rows[ROW_CELLS * (usize::from(node) - 1)..][..ROW_CELLS];
            cells.try_into().expect("a row")
        };
        self.sheltered += nodes.len() as u64;
        for &[old, new] in nodes {
            self.changed += u64::from(row(before, old) != row(after, new));
        }
    }

    /// Each refusal alone and with each later one.
    fn compare_faults(&mut self, seed: u64, index: u64) {
        let dice = &mut Dice::new(seed, index);
        let ways = |fault: usize| (0..FAULTS[fault].1).map(move |way| (fault, way));
        for first in (0..FAULTS.len()).flat_map(ways) {
            self.compare(&edits::faulty(&[first], dice));
            for later in (first.0 + 1..FAULTS.len()).flat_map(ways) {
                self.compare(&edits::faulty(&[first, later], dice));
            }
        }
        self.compare_carried_faults(dice);
    }

    /// Each refusal of carrying alone, with each later one, and with too few rows.
    fn compare_carried_faults(&mut self, dice: &mut Dice) {
        let ways = |fault: usize| (0..FAULTS[fault].1).map(move |way| (fault, way));
        for first in (0..OF_A_TREE).flat_map(ways) {
            let later = (first.0 + 1..OF_A_TREE).flat_map(ways);
            for faults in later.map(|later| vec![first, later]).chain([vec![first]]) {
                for rows in [0, 5_000] {
                    let sheet = edits::faulty_sheet(&faults, dice);
                    let rows = (0..rows).map(Cell::pattern).collect();
                    let (order, second) = (edits::order(dice), sheet.clone());
                    self.compare_carry(&Asked { sheet, order, rows, node: 1, second });
                }
            }
        }
        for order in [0, 1, 65_535] {
            let sheet = edits::faulty_sheet(&[], dice);
            let needed = ROW_CELLS * usize::from(sheet.count);
            for length in 0..=needed + 1 {
                let rows = (0..length).map(Cell::pattern).collect();
                let (sheet, second) = (sheet.clone(), sheet.clone());
                self.compare_carry(&Asked { sheet, order, rows, node: 1, second });
            }
        }
    }

    fn print(&self, seed: u64) {
        self.edits.print(&format!("seed {seed}: edits"));
        self.previews.print(&format!("seed {seed}: previews"));
        self.carries.print(&format!("seed {seed}: carries"));
        println!(
            "  rows of results {}, results larger than their sheets {}, smaller {}, most nodes {}",
            self.rows, self.grown, self.shrunk, self.most_nodes
        );
        let [crates, ours] = self.by_order;
        println!(
            "  results in the crate's order {crates}, in ours {ours}, with other rows in the other {}",
            self.apart
        );
        println!("  rows sheltered from an edit {}, changed {}", self.sheltered, self.changed);
    }
}

fn edited(asked: &Asked) -> Done {
    let (mut table, mut rows) = (asked.sheet.cells.clone(), asked.rows.clone());
    let reply = ours::edit(header(asked), &mut table, &mut rows, second(asked));
    Done { reply, table, rows }
}

/// The buffers of a preview, with something in every cell.
fn lent_beside(edit: &Edit) -> [Vec<u16>; 2] {
    [edit.lent.table, edit.lent.rows].map(|length| (0..length).map(Cell::pattern).collect())
}

fn previewed(asked: &Asked, [mut table, mut rows]: [Vec<u16>; 2]) -> Done {
    let (own, result) = ([&asked.sheet.cells[..], &asked.rows], [&mut table[..], &mut rows]);
    let reply = ours::preview(header(asked), own, second(asked), result);
    Done { reply, table, rows }
}

/// So many edits or some more, each after its preview and a carry of its sheet, and gives how
/// many of these differ.
pub fn compare(edits: u64, seed: u64) -> u64 {
    let mut tally = Tally::default();
    for index in 0.. {
        if tally.edits.all() >= edits {
            break;
        }
        if index % ALL_FAULTS == 0 {
            tally.compare_faults(seed + 30, index);
        }
        edits::edits(seed, index).iter().for_each(|edit| drop(tally.compare(edit)));
        if index % A_LARGE_ONE == 0 {
            tally.compare(&edits::large(seed + 10, index));
        }
        if index % A_RUN == 0 {
            tally.compare_run(seed + 20, index);
        }
    }
    tally.print(seed);
    tally.edits.different + tally.previews.different + tally.carries.different + tally.changed
}
