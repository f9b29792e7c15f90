//! Every export, asked by an input: the reply and every lent cell, beside the second statement.

use crate::arena::{Arena, Cell};
use crate::crate_rows;
use crate::input::Input;
use crate::watch::Watch;
use model::chart::Chart;
use model::codes::{self, Token, CLOSE, COMMA, OPEN};
use model::edit::{self, carried, over, Lengths, CARRIED};
use model::lent::{loaded, told, told_loaded};
use model::open::{self, choices_of_classes};
use model::rules::Rules;
use model::sizes::*;
use model::verdict::{self, before_tokens};
use model::written::{self, Written};
use model::{accept, columns, lent, table, NodeTable};
use std::cmp::Ordering;
use tezhukor::boundary::questions::decide_by_order;
use tezhukor::boundary::{self, columns as rearranging, edits, library};

/// The exports, those of the header first.
pub const EXPORTS: [&str; 20] = [
    "load",
    "save",
    "compare",
    "decide",
    "write",
    "read",
    "binding",
    "edit",
    "preview",
    "carry",
    "to_columns",
    "from_columns",
    "load_columns",
    "decide_open",
    "decide_by_order",
    "answer",
    "fixup_answer",
    "scan_right",
    "context",
    "handed",
];

/// How many of them the header has.
pub const IN_HEADER: usize = 14;

/// Which export a byte names.
pub fn export(byte: u8) -> usize {
    usize::from(byte) % EXPORTS.len()
}

/// The place of an export among them.
fn place(name: &str) -> usize {
    EXPORTS.iter().position(|export| *export == name).expect("an export")
}

/// What came of an input.
pub struct Told {
    /// The refusal that is stated, or 0.
    pub refusal: u16,
    /// Whether both calls replied and wrote what is stated.
    pub is_same: bool,
}

/// Buffers for one call.
type Buffers = [Arena; 6];

/// The most tokens of a list whose readings are found by cutting.
const CUT: usize = 40;

/// The most walks and nodes for which open operators are chosen one after the other.
const CHOSEN: usize = 6_000;

/// Asks, with buffers that hold one noise and then the other.
pub struct Asker {
    buffers: [Buffers; 2],
    chart: Chart,
    pub watch: Watch,
    /// Lists of tokens and open operators for which more than the refusals is stated.
    pub stated: [u64; EXPORTS.len()],
}

/// The refusal in a reply of one number.
fn refusal_of(reply: u32) -> u16 {
    (reply / REFUSAL_UNIT) as u16
}

/// The reply to a refusal.
fn refused(refusal: u16) -> u32 {
    REFUSAL_UNIT * u32::from(refusal)
}

/// The rows of an accepted table in the callee order with a number: the crate's own, or the
/// library's where its files are not at hand.
fn rows(table: &NodeTable, order: u16) -> Vec<u16> {
    let mut rows = vec![0; ROW_CELLS * usize::from(table.count)];
    let NodeTable { context, count, cells } = table;
    let reply = decide_by_order(order, *context, *count, cells, &mut rows);
    assert_eq!(reply, 0, "{table:?}");
    crate_rows::of(table, order).unwrap_or(rows)
}

/// Which nodes of an accepted table have an outer pair, by its rows.
fn pairs(table: &NodeTable, order: u16) -> Vec<bool> {
    rows(table, order).chunks_exact(ROW_CELLS).map(|row| row[0] & 1 == 1).collect()
}

/// A count that is no more than any tree needs.
fn near(count: u16) -> usize {
    usize::from(count).min(MOST_NODES + 4)
}

/// What rows may hold before they are worked out.
fn old_rows(length: usize) -> Vec<u16> {
    (0..length).map(|at| (at * 7_919) as u16).collect()
}

impl Asker {
    pub fn new() -> Asker {
        let buffers = [0, 1].map(|number| [(); 6].map(|()| Arena::new(number)));
        let chart = Chart::new(Rules::new(None));
        Asker { buffers, chart, watch: Watch::new(EXPORTS.len()), stated: [0; EXPORTS.len()] }
    }

    /// Asks what an input asks.
    pub fn ask(&mut self, input: &Input) -> Told {
        let export = export(input.head[crate::input::EXPORT]);
        let told = match EXPORTS[export] {
            "load" => self.load(input),
            "save" => self.save(input),
            "compare" => self.compare(input),
            "decide" => self.decide(input),
            "write" => self.write(input),
            "read" => self.read(input),
            "binding" => self.binding(input),
            "edit" => self.edit(input),
            "preview" => self.preview(input),
            "carry" => self.carry(input),
            "to_columns" => self.to_columns(input),
            "from_columns" => self.from_columns(input),
            "load_columns" => self.load_columns(input),
            "decide_open" => self.decide_open(input),
            "decide_by_order" => self.decide_by_order(input),
            _ => self.question(input, EXPORTS[export]),
        };
        self.watch.end(export, input);
        told
    }

    /// Calls with both noises. The call gives the reply and whether each lent cell is as stated.
    fn twice(
        &mut self,
        refusal: u16,
        meant: u64,
        mut call: impl FnMut(&mut Buffers, &mut Watch) -> (u64, bool),
    ) -> Told {
        let mut is_same = true;
        for buffers in &mut self.buffers {
            let (reply, is_stated) = call(buffers, &mut self.watch);
            is_same &= reply == meant && is_stated;
        }
        Told { refusal, is_same }
    }

    fn load(&mut self, input: &Input) -> Told {
        let file = input.file();
        self.loads(input, &file, accept::file(&file), boundary::load)
    }

    fn load_columns(&mut self, input: &Input) -> Told {
        let file = input.columns();
        self.loads(input, &file, columns::read(&file), rearranging::load_columns)
    }

    fn loads(
        &mut self,
        input: &Input,
        file: &[u8],
        stated: Result<NodeTable, u16>,
        by: fn(&[u8], &mut [u16]) -> u32,
    ) -> Told {
        let needed = match stated {
            Err(..=4) => MOST_CELLS,
            _ => NODE_CELLS * lent::count(file),
        };
        let room = input.length(0, needed);
        let meant = loaded(stated, file, room);
        let (number, cells) = told_loaded(&meant);
        self.twice(refusal_of(number), number.into(), |[from, to, ..], watch| {
            let (held, lent) = (from.hold(file), to.lend(room));
            let reply = watch.time(|| by(held, lent));
            (reply.into(), from.holds(file.len(), file) & to.holds(room, cells))
        })
    }

    fn save(&mut self, input: &Input) -> Told {
        let table = input.table();
        let meant = match accept::refusal(&table) {
            0 => Ok(table::write(&table.numbered())),
            refusal => Err(refusal),
        };
        let room = input.length(0, meant.as_ref().map_or(file_bytes(near(table.count)), Vec::len));
        let NodeTable { context, count, cells } = &table;
        self.makes(&meant, room, cells, |cells, file| boundary::save(*context, *count, cells, file))
    }

    fn to_columns(&mut self, input: &Input) -> Told {
        let file = input.file();
        let meant = accept::file(&file).map(|table| columns::write(&table));
        let room = input.length(0, meant.as_ref().map_or(file.len(), Vec::len));
        self.makes(&meant, room, &file, rearranging::to_columns)
    }

    fn from_columns(&mut self, input: &Input) -> Told {
        let file = input.columns();
        let meant = columns::read(&file).map(|table| table::write(&table));
        let room = input.length(0, meant.as_ref().map_or(file.len(), Vec::len));
        self.makes(&meant, room, &file, rearranging::from_columns)
    }

    /// Makes a file of something.
    fn makes<T: Cell>(
        &mut self,
        meant: &Result<Vec<u8>, u16>,
        room: usize,
        of: &[T],
        by: impl Fn(&[T], &mut [u8]) -> u32,
    ) -> Told {
        let (number, stored) = told(meant, room);
        self.twice(refusal_of(number), number.into(), |[from, to, ..], watch| {
            let (held, lent) = (from.hold(of), to.lend(room));
            let reply = watch.time(|| by(held, lent));
            (reply.into(), from.holds(of.len(), of) & to.holds(room, stored))
        })
    }

    fn compare(&mut self, input: &Input) -> Told {
        let (first, second) = (input.file(), input.second_file());
        let order = accept::file(&first)
            .and_then(|first| accept::file(&second).map(|second| first.cmp(&second)));
        let number = match order {
            Ok(Ordering::Less) => 0,
            Ok(Ordering::Equal) => 1,
            Ok(Ordering::Greater) => 2,
            Err(refusal) => refused(refusal),
        };
        self.twice(refusal_of(number), number.into(), |[one, two, ..], watch| {
            let (held, other) = (one.hold(&first), two.hold(&second));
            let reply = watch.time(|| boundary::compare(held, other));
            (reply.into(), one.holds(first.len(), &first) & two.holds(second.len(), &second))
        })
    }

    fn decide(&mut self, input: &Input) -> Told {
        let NodeTable { context, count, .. } = input.table();
        let by = |cells: &[u16], rows: &mut [u16]| boundary::decide(context, count, cells, rows);
        self.decides(input, 1, by)
    }

    fn decide_by_order(&mut self, input: &Input) -> Told {
        let NodeTable { context, count, .. } = input.table();
        let order = input.order();
        self.decides(input, order, |cells, rows| {
            decide_by_order(order, context, count, cells, rows)
        })
    }

    fn decides(
        &mut self,
        input: &Input,
        order: u16,
        by: impl Fn(&[u16], &mut [u16]) -> u16,
    ) -> Told {
        let table = input.table();
        let room = input.length(0, ROW_CELLS * near(table.count));
        let (refusal, rows) = match accept::refusal(&table) {
            0 if room < ROW_CELLS * usize::from(table.count) => (12, Vec::new()),
            0 => (0, rows(&table, order)),
            refusal => (refusal, Vec::new()),
        };
        let cells = &table.cells;
        self.twice(refusal, refusal.into(), |[from, to, ..], watch| {
            let (held, lent) = (from.hold(cells), to.lend(room));
            let reply = watch.time(|| by(held, lent));
            (reply.into(), from.holds(cells.len(), cells) & to.holds(room, &rows))
        })
    }

    fn write(&mut self, input: &Input) -> Told {
        let table = input.table();
        let room = input.length(0, TOKEN_CELLS_PER_NODE * near(table.count));
        let meant = written::reply(&table, room, |table| pairs(table, 1));
        let number = match &meant {
            Ok(Written { tokens, pairs }) => PAIRS_UNIT * pairs.len() as u64 + tokens.len() as u64,
            Err(refusal) => WRITTEN_UNIT * u64::from(*refusal),
        };
        let refusal = meant.as_ref().err().copied().unwrap_or(0);
        let tokens = meant.map_or(Vec::new(), |written| codes::cells(&written.tokens));
        let NodeTable { context, count, cells } = &table;
        self.twice(refusal, number, |[from, to, ..], watch| {
            let (held, lent) = (from.hold(cells), to.lend(room));
            let reply = watch.time(|| boundary::write(*context, *count, held, lent));
            (reply, from.holds(cells.len(), cells) & to.holds(room, &tokens))
        })
    }

    fn read(&mut self, input: &Input) -> Told {
        let (context, cells) = input.tokens();
        let room = input.length(0, MOST_CELLS);
        let stated = match before_tokens(context, room) {
            Some(refusal) => Some(Err(refusal)),
            None if cells.len() <= TOKEN_CELLS * CUT => {
                let verdict = verdict::of_cells(&mut self.chart, context, &cells);
                Some(verdict.expect("at most one reading"))
            }
            None if !is_list(&cells) => Some(Err(14)),
            None => None,
        };
        let Some(meant) = stated else {
            return self.read_long(context, &cells, room);
        };
        self.stated[place("read")] += 1;
        let number = match &meant {
            Ok(table) => (table.len() / NODE_CELLS) as u32,
            Err(refusal) => refused(*refusal),
        };
        let table = meant.unwrap_or_default();
        self.twice(refusal_of(number), number.into(), |[from, to, ..], watch| {
            let (held, lent) = (from.hold(&cells), to.lend(room));
            let reply = watch.time(|| boundary::read(context, held, lent));
            (reply.into(), from.holds(cells.len(), &cells) & to.holds(room, &table))
        })
    }

    /// A list that is too long to be cut: 15 or 16, or a plain tree that is written with the same
    /// tokens but for parentheses and commas.
    fn read_long(&mut self, context: u16, cells: &[u16], room: usize) -> Told {
        let mut table = vec![0; room];
        let number = boundary::read(context, cells, &mut table);
        let refusal = refusal_of(number);
        table.truncate(if refusal == 0 { NODE_CELLS * number as usize } else { 0 });
        let is_read = match refusal {
            15 | 16 => true,
            0 => {
                let tree = NodeTable { context, count: number as u16, cells: table.clone() };
                let lent = TOKEN_CELLS_PER_NODE * number as usize;
                let written = written::reply(&tree, lent, |tree| pairs(tree, 1));
                written.is_ok_and(|written| bare(&written.tokens) == bare(&Token::of_cells(cells)))
            }
            _ => false,
        };
        let told = self.twice(refusal, number.into(), |[from, to, ..], watch| {
            let (held, lent) = (from.hold(cells), to.lend(room));
            let reply = watch.time(|| boundary::read(context, held, lent));
            (reply.into(), from.holds(cells.len(), cells) & to.holds(room, &table))
        });
        Told { is_same: told.is_same && is_read, ..told }
    }

    fn binding(&mut self, input: &Input) -> Told {
        let operator = input.node();
        let reply = boundary::binding(operator);
        let is_operator = reply != NO_OPERATOR && reply % LEVEL_UNIT < 3 && reply / LEVEL_UNIT < 16;
        let is_stated = is_operator == (operator <= LAST_OPERATOR);
        self.twice(0, reply.into(), |_, watch| {
            (watch.time(|| boundary::binding(operator)).into(), is_stated)
        })
    }

    fn edit(&mut self, input: &Input) -> Told {
        let asked = asked(input);
        let meant = edit::lent(asked.result(), &[asked.lengths()]);
        let (table, rows) = (&asked.sheet.cells, &asked.rows);
        let [new_table, new_rows] = match &meant {
            Ok(result) => {
                let new = self::rows(result, asked.order);
                [over(&result.cells, table.clone()), over(&new, rows.clone())]
            }
            Err(_) => [table.clone(), rows.clone()],
        };
        let second = &asked.second.cells;
        let number = edit::reply(&meant);
        self.twice(refusal_of(number), number.into(), |[one, two, three, ..], watch| {
            let (held, rows, other) = (one.hold(table), two.hold(rows), three.hold(second));
            let edit = second_of(&asked, other);
            let reply = watch.time(|| edits::edit(sheet(&asked), held, rows, edit));
            let is_edited = one.holds(new_table.len(), &new_table);
            let is_decided = two.holds(new_rows.len(), &new_rows);
            (reply.into(), is_edited & is_decided & three.holds(second.len(), second))
        })
    }

    fn preview(&mut self, input: &Input) -> Told {
        let asked = asked(input);
        let result = asked.result();
        let needed = Lengths::of(result.as_ref().map_or(4, |result| result.count));
        let room =
            Lengths { table: input.length(2, needed.table), rows: input.length(3, needed.rows) };
        let meant = edit::lent(result, &[asked.lengths(), room]);
        let [new_table, new_rows] = match &meant {
            Ok(result) => [result.cells.clone(), rows(result, asked.order)],
            Err(_) => [Vec::new(), Vec::new()],
        };
        let (table, rows, second) = (&asked.sheet.cells, &asked.rows, &asked.second.cells);
        let number = edit::reply(&meant);
        self.twice(refusal_of(number), number.into(), |[one, two, three, four, five, _], watch| {
            let own = [&*one.hold(table), &*two.hold(rows)];
            let edit = second_of(&asked, three.hold(second));
            let lent = [four.lend(room.table), five.lend(room.rows)];
            let reply = watch.time(|| edits::preview(sheet(&asked), own, edit, lent));
            let is_kept = one.holds(table.len(), table)
                & two.holds(rows.len(), rows)
                & three.holds(second.len(), second);
            let is_edited = four.holds(room.table, &new_table) & five.holds(room.rows, &new_rows);
            (reply.into(), is_kept & is_edited)
        })
    }

    fn carry(&mut self, input: &Input) -> Told {
        let table = input.table();
        let old = old_rows(input.length(0, ROW_CELLS * near(table.count)));
        let number = carried(&table, old.len());
        let new = match (number, input.order()) {
            (CARRIED, 0) => over(&rows(&table, 1), old.clone()),
            _ => old.clone(),
        };
        let NodeTable { context, count, cells } = &table;
        let sheet = edits::Sheet { context: *context, count: *count, order: input.order() };
        self.twice(refusal_of(number), number.into(), |[one, two, ..], watch| {
            let (held, rows) = (one.hold(cells), two.hold(&old));
            let reply = watch.time(|| edits::carry(sheet, held, rows));
            (reply.into(), one.holds(cells.len(), cells) & two.holds(new.len(), &new))
        })
    }

    fn decide_open(&mut self, input: &Input) -> Told {
        let table = input.table();
        let mut entries = input.second_numbers();
        let entered = if entries.is_empty() { 0 } else { entries.remove(0) };
        let lent = input.length(0, near(table.count));
        let asked = open::Asked { table, order: input.order(), entered, entries, lent };
        let refusal = asked.refusal();
        let NodeTable { context, count, cells } = &asked.table;
        let sheet = edits::Sheet { context: *context, count: *count, order: asked.order };
        let answers = match refusal {
            0 => self.answers(&asked, sheet),
            _ => Some(Vec::new()),
        };
        let Some(answers) = answers else {
            return Told { refusal, is_same: false };
        };
        let entries = &asked.entries;
        self.twice(refusal, refusal.into(), |[one, two, three, ..], watch| {
            let (held, given, lend) = (one.hold(cells), two.hold(entries), three.lend(lent));
            let reply = watch.time(|| edits::decide_open(sheet, held, entered, given, lend));
            let is_kept = one.holds(cells.len(), cells) & two.holds(entries.len(), entries);
            (reply.into(), is_kept & three.holds(lent, &answers))
        })
    }

    /// The answers over one operator of each class at each entry, by the rows; where
    /// these are too many the library's own, none if one of them is no answer.
    fn answers(&mut self, asked: &open::Asked, sheet: edits::Sheet) -> Option<Vec<u16>> {
        let choices = choices_of_classes(&asked.entries());
        if choices.len() * usize::from(asked.table.count) <= CHOSEN {
            self.stated[place("decide_open")] += 1;
            return Some(asked.answers(choices, |table| pairs(table, asked.order)));
        }
        let mut answers = vec![3; asked.table.count.into()];
        let (cells, entries) = (&asked.table.cells, &asked.entries);
        let reply = edits::decide_open(sheet, cells, asked.entered, entries, &mut answers);
        (reply == 0 && answers.iter().all(|&answer| answer < 3)).then_some(answers)
    }

    /// The functions behind a row, with any numbers: total, and the same each time.
    fn question(&mut self, input: &Input, name: &str) -> Told {
        let NodeTable { count, cells, .. } = input.table();
        let numbers = input.second_numbers();
        let number = |at: usize| numbers.get(at).copied().unwrap_or(0);
        let [asked, previous, next, flags] = [0, 1, 2, 3].map(number);
        let node = input.node();
        let by = |table: &[u16]| {
            let (start, length) = (table.as_ptr(), table.len());
            // SAFETY: the pointer and the length are those of a slice, which is only read; the
            // functions demand nothing else of their arguments.
            unsafe {
                match name {
                    "answer" => library::tezhukor_answer(asked, start, length, count, node),
                    "fixup_answer" => library::tezhukor_fixup_answer(
                        asked, previous, next, flags, start, length, count, node,
                    ),
                    "scan_right" => library::tezhukor_scan_right(
                        previous,
                        next,
                        flags,
                        asked,
                        number(4),
                        number(5),
                        start,
                        length,
                        count,
                        node,
                    ),
                    "context" => library::tezhukor_context(
                        asked,
                        number(4),
                        previous,
                        next,
                        flags,
                        number(5),
                        number(6),
                        number(7),
                    ),
                    _ => library::tezhukor_handed(
                        asked,
                        number(4),
                        previous,
                        next,
                        flags,
                        start,
                        length,
                        count,
                        node,
                    ),
                }
            }
        };
        let reply = by(&cells);
        self.twice(0, reply.into(), |[one, ..], watch| {
            let held = one.hold(&cells);
            let reply = watch.time(|| by(held));
            (reply.into(), one.holds(cells.len(), &cells))
        })
    }
}

/// Whether cells are a token list, as 14 says.
fn is_list(cells: &[u16]) -> bool {
    cells.len() % TOKEN_CELLS == 0 && verdict::is_list(&Token::of_cells(cells))
}

/// A list without its parentheses and commas.
fn bare(tokens: &[Token]) -> Vec<Token> {
    let stays = |token: &&Token| ![OPEN, CLOSE, COMMA].contains(&token.code);
    tokens.iter().filter(stays).copied().collect()
}

/// The edit that an input asks for; its buffers go by what the result needs.
fn asked(input: &Input) -> edit::Asked {
    let (sheet, second) = (input.table(), input.second_table());
    let (order, node) = (input.order(), input.node());
    let mut asked = edit::Asked { sheet, order, rows: Vec::new(), node, second };
    let result = asked.result().map(|result| result.count);
    let needed = Lengths::of(result.unwrap_or(near(asked.sheet.count) as u16));
    let room = input.length(0, needed.table).max(asked.sheet.cells.len());
    if result.is_ok() {
        asked.sheet.cells.resize(room, 7);
    }
    asked.rows = old_rows(input.length(1, needed.rows));
    asked
}

/// What a sheet is beside its table and its rows.
fn sheet(asked: &edit::Asked) -> edits::Sheet {
    let NodeTable { context, count, .. } = asked.sheet;
    edits::Sheet { context, count, order: asked.order }
}

/// What is edited with, whose table lies there.
fn second_of<'a>(asked: &edit::Asked, table: &'a [u16]) -> edits::Edit<'a> {
    let NodeTable { context, count, .. } = asked.second;
    edits::Edit { node: asked.node, context, count, table }
}
