//! Edits of open sheets, sheets carried to our callee order, and operators that are not chosen
//! yet.

use super::library;

/// What an open sheet is beside its table and its rows.
#[derive(Copy, Clone, Debug)]
pub struct Sheet {
    pub context: u16,
    pub count: u16,
    /// The number of its callee order: 0 the crate's, any other ours.
    pub order: u16,
}

/// An edit: the number of a node, and the second tree, whose root and all under it comes to
/// stand there.
#[derive(Copy, Clone, Debug)]
pub struct Edit<'a> {
    pub node: u16,
    /// The second tree's context, which is checked and not used.
    pub context: u16,
    pub count: u16,
    pub table: &'a [u16],
}

/// Edits the sheet of a table, in which the result is numbered from the root on, and its
/// rows, which are worked out afresh in the sheet's order whatever they were. What is done is
/// the result's count.
pub fn edit(sheet: Sheet, table: &mut [u16], rows: &mut [u16], edit: Edit) -> u32 {
    // SAFETY: pointers and lengths are those of slices, of which none overlaps
    // another; the function demands nothing else of its arguments.
    unsafe {
        library::tezhukor_edit(
            sheet.context,
            sheet.count,
            sheet.order,
            table.as_mut_ptr(),
            table.len(),
            rows.as_mut_ptr(),
            rows.len(),
            edit.node,
            edit.context,
            edit.count,
            edit.table.as_ptr(),
            edit.table.len(),
        )
    }
}

/// What [`edit`] would give on a copy of the sheet in buffers as long as its own: the reply,
/// and the result's table and rows in buffers beside it, which must have room for it too.
/// The sheet is only read.
pub fn preview(
    sheet: Sheet,
    [table, rows]: [&[u16]; 2],
    edit: Edit,
    result: [&mut [u16]; 2],
) -> u32 {
    let [result_table, result_rows] = result;
    // SAFETY: as above.
    unsafe {
        library::tezhukor_preview(
            sheet.context,
            sheet.count,
            sheet.order,
            table.as_ptr(),
            table.len(),
            rows.as_ptr(),
            rows.len(),
            edit.node,
            edit.context,
            edit.count,
            edit.table.as_ptr(),
            edit.table.len(),
            result_table.as_mut_ptr(),
            result_table.len(),
            result_rows.as_mut_ptr(),
            result_rows.len(),
        )
    }
}

/// Carries the sheet of a table to our callee order: if it holds the crate's, its rows become
/// those of a fresh walk in ours, and else nothing changes. What is done is 1.
pub fn carry(sheet: Sheet, table: &[u16], rows: &mut [u16]) -> u32 {
    // SAFETY: as above.
    unsafe {
        library::tezhukor_carry(
            sheet.context,
            sheet.count,
            sheet.order,
            table.as_ptr(),
            table.len(),
            rows.as_mut_ptr(),
            rows.len(),
        )
    }
}

/// Decides of each node whether it has an outer pair for no choice (0), for every choice (1) or
/// for some (2) of the operators that entries leave open, of which there are `entered`,
/// [`ENTRY_CELLS`](model::sizes::ENTRY_CELLS) cells each: a Binary's number, and the lowest and
/// the highest operator. The operators in the table itself play no part there. The reply is 0
/// or the refusal.
pub fn decide_open(
    sheet: Sheet,
    table: &[u16],
    entered: u16,
    entries: &[u16],
    answers: &mut [u16],
) -> u16 {
    // SAFETY: as above.
    unsafe {
        library::tezhukor_decide_open(
            sheet.context,
            sheet.count,
            sheet.order,
            table.as_ptr(),
            table.len(),
            entered,
            entries.as_ptr(),
            entries.len(),
            answers.as_mut_ptr(),
            answers.len(),
        )
    }
}
