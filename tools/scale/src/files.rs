//! Which tree files document 01 accepts, stated over runs of bytes: a number is
//! a run that its first byte without the high bit ends.

use model::sizes::{LAST_CONTEXT, MOST_FILE_BYTES, MOST_NODES, NODE_CELLS};
use model::{accept, NodeTable};

/// The table of an accepted file, or the first refusal that applies.
pub fn read(file: &[u8]) -> Result<NodeTable, u16> {
    if file.len() > MOST_FILE_BYTES {
        return Err(1);
    }
    let runs = file.split_inclusive(|byte| byte & 0x80 == 0);
    let numbers: Vec<Option<u16>> = runs.map(number).collect();
    let [Some(context), Some(count), body @ ..] = &numbers[..] else {
        return Err(2);
    };
    let (context, count) = (*context, *count);
    if context > LAST_CONTEXT {
        return Err(3);
    }
    if !(1..=MOST_NODES).contains(&count.into()) {
        return Err(4);
    }
    let cells: Vec<u16> = body.iter().copied().collect::<Option<_>>().ok_or(5u16)?;
    if cells.len() != NODE_CELLS * usize::from(count) {
        return Err(5);
    }
    let table = NodeTable { context, count, cells };
    match accept::refusal(&table) {
        0 => Ok(table),
        refusal => Err(refusal),
    }
}

/// The number of a run, none if it is malformed.
fn number(run: &[u8]) -> Option<u16> {
    let (&last, others) = run.split_last()?;
    let cut_off = last & 0x80 != 0;
    let empty = last == 0 && !others.is_empty();
    if cut_off || empty {
        return None;
    }
    let add = |value: u32, group: &u8| value.checked_mul(128)?.checked_add(u32::from(group & 0x7F));
    run.iter().rev().try_fold(0, add).and_then(|value| u16::try_from(value).ok())
}
