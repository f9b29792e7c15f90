//! Damage to tree files.

use model::forms::{self, BLOCK, CLOSURE, TYPE_IMPL_TRAIT, TYPE_PATH, TYPE_TRAIT_OBJECT};
use model::generate::Dice;
use model::sizes::{MOST_FILE_BYTES, MOST_LEVELS, MOST_NODES, MOST_SYMBOL, NODE_CELLS};
use model::table::{self, groups, NodeTable, ATTRIBUTES, DETAIL, FIRST, FORM, SECOND, SYMBOL};
use model::verdict::longest_path;

/// A file, and the reply that its damage is meant to give where that is certain.
pub struct Damaged {
    pub file: Vec<u8>,
    pub meant: Option<u16>,
}

/// Damages the file of an accepted table in some way.
pub fn damage(table: &NodeTable, dice: &mut Dice) -> Damaged {
    match dice.below(12) {
        0..=5 => in_numbers(table, dice),
        6 => in_bytes(table, dice),
        7 => malformed(table, dice),
        8 => at_end(table, dice),
        9 => deepened(table, dice),
        _ => in_detail(table, dice).unwrap_or_else(|| in_numbers(table, dice)),
    }
}

/// Damages a file of a header and numbers, whatever these stand for.
#[allow(dead_code)] // not by all that take this file
pub fn in_file(numbers: &NodeTable, dice: &mut Dice) -> Damaged {
    match dice.below(12) {
        0..=3 => in_numbers(numbers, dice),
        4..=7 => in_any_number(numbers, dice),
        8 => in_bytes(numbers, dice),
        9 => malformed(numbers, dice),
        _ => at_end(numbers, dice),
    }
}

/// Another number for one or two of them, a near one or any.
fn in_any_number(numbers: &NodeTable, dice: &mut Dice) -> Damaged {
    let mut numbers = numbers.clone();
    for _ in 0..dice.pick(&[1, 1, 2]) {
        let at = dice.below(numbers.cells.len());
        let (old, bits) = (numbers.cells[at], dice.between(1, 16));
        numbers.cells[at] = match dice.below(4) {
            0 => old.wrapping_add(dice.pick(&[1, 2])),
            1 => old.wrapping_sub(dice.pick(&[1, 2])),
            2 => dice.below(1 << bits) as u16,
            _ => u16::MAX - dice.below(usize::from(numbers.count) + 2) as u16,
        };
    }
    Damaged { file: table::write(&numbers), meant: None }
}

/// Other numbers in the header, in one node or in two.
fn in_numbers(table: &NodeTable, dice: &mut Dice) -> Damaged {
    let mut table = table.clone();
    for _ in 0..dice.pick(&[1, 1, 1, 2]) {
        match dice.below(8) {
            0 => change_header(&mut table, dice),
            1 => exchange(&mut table, dice),
            _ => change_cell(&mut table, dice),
        }
    }
    Damaged { file: table::write(&table), meant: None }
}

fn change_header(table: &mut NodeTable, dice: &mut Dice) {
    const MOST: u16 = MOST_NODES as u16;
    let count = table.count;
    if dice.percent(50) {
        table.context = dice.pick(&[0, 1, 2, 3, 4, 5, 127, 128, 65_535]);
    } else {
        table.count = dice.pick(&[0, 1, count - 1, count + 1, MOST - 1, MOST, MOST + 1, 65_535]);
    }
}

/// Exchanges the operands of a node, or those of two.
fn exchange(table: &mut NodeTable, dice: &mut Dice) {
    let nodes = table.cells.len() / NODE_CELLS;
    let (one, other) = (NODE_CELLS * dice.below(nodes), NODE_CELLS * dice.below(nodes));
    if dice.percent(50) {
        table.cells.swap(one + FIRST, one + SECOND);
    } else {
        table.cells.swap(one + FIRST + dice.below(2), other + FIRST + dice.below(2));
    }
}

fn change_cell(table: &mut NodeTable, dice: &mut Dice) {
    let node = NODE_CELLS * dice.below(table.cells.len() / NODE_CELLS);
    let cell = node + dice.below(NODE_CELLS);
    let old = table.cells[cell];
    let limit = match cell - node {
        FORM => 58,
        ATTRIBUTES => 4,
        DETAIL => forms::details(table.cells[node]).max(1) + 1,
        SYMBOL => MOST_SYMBOL,
        _ => table.count.saturating_add(2),
    };
    table.cells[cell] = match dice.below(10) {
        0 => 0,
        1 => old.wrapping_add(1),
        2 => old.wrapping_sub(1),
        3 => dice.pick(&[127, 128, 255, 256, 16_383, 16_384, 65_535]),
        _ => dice.below(usize::from(limit)) as u16,
    };
}

/// A detail that refusals 9 and 10 speak of: that of a type without operands
/// becomes 0, that of a closure over something else than a plain Block 1.
fn in_detail(table: &NodeTable, dice: &mut Dice) -> Option<Damaged> {
    let refusal = dice.pick(&[9, 10]);
    let fits = |node: &[u16]| match (refusal, node) {
        (9, [TYPE_PATH | TYPE_IMPL_TRAIT | TYPE_TRAIT_OBJECT, _, _, 0, 0, 0]) => true,
        (10, [CLOSURE, _, _, body, ..]) => {
            table.cells[NODE_CELLS * (usize::from(*body) - 1)..][..FIRST] != [BLOCK, 0, 0]
        }
        _ => false,
    };
    let nodes: Vec<&[u16]> = table.cells.chunks(NODE_CELLS).collect();
    let found: Vec<usize> = (0..nodes.len()).filter(|&node| fits(nodes[node])).collect();
    if found.is_empty() {
        return None;
    }
    let mut table = table.clone();
    table.cells[NODE_CELLS * dice.pick(&found) + DETAIL] = u16::from(refusal == 10);
    Some(Damaged { file: table::write(&table), meant: Some(refusal) })
}

/// A byte more, less, or another.
fn in_bytes(table: &NodeTable, dice: &mut Dice) -> Damaged {
    let mut file = table::write(table);
    let at = dice.below(file.len());
    let byte = match dice.below(4) {
        0 => 0,
        1 => dice.pick(&[0x7F, 0x80, 0x81, 0xFF]),
        _ => dice.below(256) as u8,
    };
    match dice.below(4) {
        0 => {
            file.remove(at);
        }
        1 => file.insert(at, byte),
        2 => file[at] = byte,
        _ => file[at] ^= 0x80,
    }
    Damaged { file, meant: None }
}

/// One number that is above 65,535 or has a last group of zero after others.
fn malformed(table: &NodeTable, dice: &mut Dice) -> Damaged {
    let numbers = [table.context, table.count].into_iter().chain(table.cells.iter().copied());
    let total = 2 + table.cells.len();
    let at = if dice.percent(30) { dice.below(2) } else { dice.below(total) };
    let mut file = Vec::new();
    for (number, index) in numbers.zip(0..) {
        let mut bytes = groups(number.into());
        if index == at {
            match dice.below(3) {
                0 => bytes = groups(65_536 + u32::from(number)),
                1 => bytes = groups(dice.between(65_536, u32::MAX as usize) as u32),
                _ => {
                    let last = bytes.len() - 1;
                    bytes[last] |= 0x80;
                    bytes.extend(vec![0x80; dice.below(3)]);
                    bytes.push(0);
                }
            }
        }
        file.extend(bytes);
    }
    if file.len() > MOST_FILE_BYTES {
        return Damaged { file, meant: Some(1) };
    }
    Damaged { file, meant: Some(if at < 2 { 2 } else { 5 }) }
}

/// A file that is cut off, or that has more bytes behind it.
fn at_end(table: &NodeTable, dice: &mut Dice) -> Damaged {
    let mut file = table::write(table);
    let header = groups(table.context.into()).len() + groups(table.count.into()).len();
    let more = match dice.below(20) {
        0..=7 => {
            let left =
                if dice.percent(20) { dice.below(header + 1) } else { dice.below(file.len()) };
            file.truncate(left);
            return Damaged { file, meant: Some(if left < header { 2 } else { 5 }) };
        }
        8 => MOST_FILE_BYTES - file.len(),
        9 => MOST_FILE_BYTES + 1 - file.len(),
        10 => dice.between(65_530, 70_000) - file.len(),
        _ => dice.between(1, 12),
    };
    file.extend((0..more).map(|_| dice.pick(&[0, 0, 1, 0x7F, 0x80, 0xFF])));
    let meant = match file.len() {
        0..=MOST_FILE_BYTES if more > 0 => 5,
        0..=MOST_FILE_BYTES => 0,
        _ => 1,
    };
    Damaged { file, meant: Some(meant) }
}

/// Parens above the root, so that the longest path is about as long as it may be.
fn deepened(table: &NodeTable, dice: &mut Dice) -> Damaged {
    const MOST: usize = MOST_LEVELS;
    let depth = longest_path(&table.cells);
    let wanted = dice.pick(&[MOST - 1, MOST, MOST, MOST + 1, MOST + 1, MOST + 2]).max(depth);
    let table = table.in_parens((wanted - depth) as u16);
    let file = table::write(&table);
    let meant = if file.len() > MOST_FILE_BYTES {
        1
    } else if usize::from(table.count) > MOST_NODES {
        4
    } else if wanted > MOST {
        11
    } else {
        0
    };
    Damaged { file, meant: Some(meant) }
}
