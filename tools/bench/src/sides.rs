//! What is asked of a tree: every export, and of the crate what does the same.

use crate::cases::{decide, Case, Lent};
use model::sizes::{file_bytes, ROW_CELLS, TOKEN_CELLS_PER_NODE};
use model::CalleeOrder;
use std::hint::black_box;
use tezhukor::boundary::{self, columns, edits};

/// Defines the sides: a name in code, and one in tables.
macro_rules! sides {
    ($($(#[$said:meta])* $side:ident $name:literal,)*) => {
        /// What is asked.
        #[derive(Copy, Clone, PartialEq, Eq, Debug)]
        pub enum Side {
            $($(#[$said])* $side,)*
        }

        impl Side {
            /// All sides, by number.
            pub const ALL: [Side; [$(Side::$side),*].len()] = [$(Side::$side),*];

            /// The name in tables.
            pub fn name(self) -> &'static str {
                match self {
                    $(Side::$side => $name,)*
                }
            }
        }
    };
}

sides! {
    /// tezhukor_decide: the refusals 3, 4 and 6 to 11, and the rows.
    Decide "decide",
    /// tezhukor_decide with no room for rows: the same refusals, and then 12.
    Checks "decide, the checks of it",
    /// The crate's `Printer::expr`, and what is recorded of it for rows.
    CrateRows "the crate, rows",
    /// The crate's `Printer::expr` alone.
    CratePrinting "the crate, printing",
    /// A tree file into a table of the most nodes.
    Load "load",
    /// The table into a buffer with room for as many bytes as so many nodes can take.
    Save "save",
    /// The file with itself, so that all of it is read; both are checked.
    Compare "compare",
    /// The tokens of a plain tree.
    Write "write",
    /// These tokens into a table of the most nodes, on the stack of the caller.
    Read "read",
    /// An edit. It checks both tables, numbers the result and works out its rows; the table is
    /// copied back to the sheet's before it, since an edit leaves the result there.
    Edit "edit",
    /// The same into buffers beside the sheet.
    Preview "preview",
    /// What an edit gives, as a tree of its own.
    DecideResult "decide the edit's result",
    /// The sheet from the crate's callee order to ours.
    Carry "carry",
    /// The file rearranged, into a buffer as that for saving.
    ToColumns "to_columns",
    /// And put back.
    FromColumns "from_columns",
    /// The rearranged file into a table of the most nodes.
    LoadColumns "load_columns",
    /// With every operator chosen.
    Closed "decide_open, no entry",
    /// With `+` or `-` left open at three Binaries, or all that there are.
    Open "decide_open, up to three entries",
    /// How one operator binds.
    Binding "binding",
    /// Nothing: what this program itself takes for a call, which is taken off all others.
    Nothing "nothing",
}

impl Side {
    /// All that stand in tables.
    pub const SHOWN: &'static [Side] = Side::ALL.split_at(Side::Nothing as usize).0;

    /// Asks once. The reply is the export's, or 0.
    #[inline]
    pub fn ask(self, case: &Case, lent: &mut Lent) -> u64 {
        let (context, nodes, cells) = (case.tree.context, case.tree.count, &case.tree.cells[..]);
        let count = usize::from(nodes);
        let bytes = file_bytes(count);
        match self {
            Side::Decide => decide(&case.tree, &mut lent.rows[..ROW_CELLS * count]).into(),
            Side::Checks => decide(&case.tree, &mut []).into(),
            Side::CrateRows => {
                black_box(case.built.printed(CalleeOrder::Crate, case.context));
                0
            }
            Side::CratePrinting => {
                case.built.only_printed(case.context);
                0
            }
            Side::Load => boundary::load(&case.file, &mut lent.cells).into(),
            Side::Save => boundary::save(context, nodes, cells, &mut lent.bytes[..bytes]).into(),
            Side::Compare => boundary::compare(&case.file, &case.file).into(),
            Side::Write => {
                let room = TOKEN_CELLS_PER_NODE * count;
                boundary::write(context, nodes, cells, &mut lent.tokens[..room])
            }
            Side::Read => boundary::read(context, &case.tokens, &mut lent.cells).into(),
            Side::Edit => {
                let [table, rows] = lent.for_edit(case);
                table[..cells.len()].copy_from_slice(cells);
                edits::edit(case.sheet(), table, rows, case.edit()).into()
            }
            Side::Preview => {
                let [table, rows] = lent.for_edit(case);
                edits::preview(case.sheet(), [&case.roomy, &case.rows], case.edit(), [table, rows])
                    .into()
            }
            Side::DecideResult => {
                let result = &case.result;
                let rows = &mut lent.rows[..ROW_CELLS * usize::from(result.count)];
                decide(result, rows).into()
            }
            Side::Carry => {
                let rows = &mut lent.rows[..ROW_CELLS * count];
                edits::carry(edits::Sheet { order: 0, ..case.sheet() }, cells, rows).into()
            }
            Side::ToColumns => columns::to_columns(&case.file, &mut lent.bytes[..bytes]).into(),
            Side::FromColumns => {
                columns::from_columns(&case.columns, &mut lent.bytes[..bytes]).into()
            }
            Side::LoadColumns => columns::load_columns(&case.columns, &mut lent.cells).into(),
            Side::Closed => case.open(&[], &mut lent.answers[..count]).into(),
            Side::Open => case.open(&case.entries, &mut lent.answers[..count]).into(),
            Side::Binding => boundary::binding(case.operator).into(),
            Side::Nothing => 0,
        }
    }
}
