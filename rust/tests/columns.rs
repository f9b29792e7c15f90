//! Files rearranged by columns and put back, and the order of their refusals.
//!
//! What must come out is stated by `model`. `tools/loader` asks the same of many more files.
//!
//! TEZHUKOR_FUZZ says how many of each are made; 2,000 if it says nothing.

use model::columns;
use model::generate::{Dice, Draft, Family, Order};
use model::lent::{told, told_loaded, Lent};
use model::recorded::records;
use model::sizes::*;
use model::table::{self, NodeTable};
use tezhukor::boundary::columns::{from_columns, load_columns, to_columns};
use tezhukor::{Refusal, Tree};

/// How many of each are made.
fn times() -> u64 {
    std::env::var("TEZHUKOR_FUZZ").ok().and_then(|times| times.parse().ok()).unwrap_or(2_000)
}

/// Makes one kind of file to the other with so many bytes lent, and looks at the reply and at
/// every byte.
fn make(by: fn(&[u8], &mut [u8]) -> u32, file: &[u8], length: usize, meant: &Result<Vec<u8>, u16>) {
    let mut lent = Lent::new(length);
    let reply = by(file, lent.lend(length));
    let (number, stored) = told(meant, length);
    assert_eq!(reply, number, "{file:?}");
    assert_eq!(lent.take(stored.len()).as_deref(), Some(stored), "{file:?}");
}

/// Loads a rearranged file with so many cells lent.
fn load(file: &[u8], length: usize, meant: &Result<NodeTable, u16>) {
    let mut lent = Lent::new(length);
    let reply = load_columns(file, lent.lend(length));
    let (number, stored) = told_loaded(meant);
    assert_eq!(reply, number, "{file:?}");
    assert_eq!(lent.take(stored.len()).as_deref(), Some(stored), "{file:?}");
}

/// A rearranged file is put back and loaded as the model says.
fn ask(file: &[u8], lengths: impl IntoIterator<Item = usize>) -> u16 {
    let stated = columns::read(file);
    let tree_file = stated.as_ref().map(table::write).map_err(|&refusal| refusal);
    for length in lengths {
        make(from_columns, file, length, &tree_file);
    }
    load(file, MOST_CELLS, &stated);
    assert_eq!(tezhukor::from_columns(file).map_err(Refusal::number), tree_file);
    stated.err().unwrap_or(0)
}

/// Each recorded file is rearranged if it is accepted, and put back to its own bytes.
#[test]
fn recorded_files() {
    let mut accepted = 0;
    for record in records("files") {
        let stated = Tree::load(&record.bytes).map_err(Refusal::number);
        let meant = stated.as_ref().map_err(|&refusal| refusal).map(|tree| {
            let cells = tree.cells().to_vec();
            columns::write(&NodeTable { context: tree.context(), count: tree.count(), cells })
        });
        make(to_columns, &record.bytes, MOST_FILE_BYTES, &meant);
        let (Ok(tree), Ok(file)) = (stated, meant) else { continue };
        assert_eq!(tezhukor::from_columns(&file).as_ref(), Ok(&record.bytes));
        assert_eq!(Tree::from_columns(&file), Ok(tree));
        accepted += 1;
    }
    assert!(accepted > 1_000, "{accepted}");
}

/// Trees under any numbering, with every buffer length near what is written.
#[test]
fn there_and_back() {
    for index in 0..times() {
        let dice = &mut Dice::new(61, index);
        let tree = Family::Mixed.tree(62, index);
        let table = Draft::of(&tree).number(tree.context, Order::any(dice), dice);
        let (file, rearranged) = (table::write(&table), columns::write(&table));
        let near = |length: usize| length.saturating_sub(8)..=length + 8;
        for length in near(rearranged.len()) {
            make(to_columns, &file, length, &Ok(rearranged.clone()));
        }
        assert_eq!(ask(&rearranged, near(file.len())), 0);
        let loaded = Tree::load(&file).expect("accepted");
        assert_eq!(Tree::from_columns(&rearranged), Ok(loaded.clone()));
        // A tree has one file of each kind.
        assert_eq!(loaded.to_columns(), columns::write(&tree.numbered()));
        assert_eq!(tezhukor::to_columns(&loaded.to_file()), Ok(loaded.to_columns()));
    }
}

/// Any number anywhere, cut and extended files.
#[test]
fn damaged() {
    let mut replies = [0u64; LAST_REFUSAL as usize + 1];
    for index in 0..times() {
        let dice = &mut Dice::new(63, index);
        let mut held = columns::rearranged(&Family::Mixed.tree(64, index));
        for _ in 0..dice.below(3) {
            let (at, bits) = (dice.below(held.cells.len()), dice.between(1, 16));
            held.cells[at] = dice.below(1 << bits) as u16;
        }
        let mut file = table::write(&held);
        match dice.below(6) {
            0 => file.truncate(dice.below(file.len())),
            1 => file.push(dice.below(256) as u8),
            _ => {}
        }
        replies[usize::from(ask(&file, [0, file.len(), MOST_FILE_BYTES]))] += 1;
    }
    println!("rearranged files by reply {replies:?}; different 0");
    assert!(replies[19] > 0 && replies[5] > 0 && replies[0] > 0);
}

/// All of 5 comes before 19, and 19 before 6; 65,535 is still within.
#[test]
fn order_of_checks() {
    // A call of a name without arguments, by columns.
    let held = |changes: &[(usize, u16)]| {
        let mut cells = [16, 36, 0, 0, 0, 0, 1, 0, 0, 0, 0, 0];
        changes.iter().for_each(|&(at, number)| cells[at] = number);
        [vec![0, 2], table::numbers(&cells)].concat()
    };
    const MOST: u16 = u16::MAX;
    let files: [(&[(usize, u16)], u16); 12] = [
        (&[], 0),
        // A form below 0, and back in it with the next.
        (&[(0, 1)], 19),
        (&[(0, 1), (1, 54)], 19),
        (&[(1, 17)], 19),
        (&[(1, 15)], 6),
        // Operands above 65,535, also where none may stand.
        (&[(6, MOST)], 19),
        (&[(6, MOST - 1)], 8),
        (&[(7, MOST - 1)], 19),
        (&[(7, MOST - 2)], 7),
        (&[(8, MOST)], 19),
        (&[(9, MOST)], 19),
        // What 6 says of attributes comes after.
        (&[(2, 9), (9, MOST)], 19),
    ];
    for (changes, refusal) in files {
        assert_eq!(ask(&held(changes), [MOST_FILE_BYTES]), refusal, "{changes:?}");
    }
    // Behind the last number, and in it.
    let outside = held(&[(0, 1)]);
    assert_eq!(ask(&[&outside[..], &[0]].concat(), [0]), 5);
    assert_eq!(ask(&outside[..outside.len() - 1], [0]), 5);
    assert_eq!(ask(&[&outside[..outside.len() - 1], &[0x80, 0]].concat(), [0]), 5);
    // A number above 65,535 is malformed, whatever it holds.
    let mut long = held(&[]);
    long.splice(2..3, [0x80, 0x80, 4]);
    assert_eq!(ask(&long, [0]), 5);
    // The buffer comes last, the table with the count.
    let short = Err(4);
    load(&outside, 2 * NODE_CELLS - 1, &short);
    assert_eq!(ask(&outside, [0]), 19);
}
