//! The recorded answers of `crates/recorded/data`, asked through this crate: files by
//! `tools/record_files.py`, rows and callees by prettyplease's own files, readings and tokens by
//! `tools/readings`, saved files and orders by `tools/record_archive.py`, rearranged files by
//! `tools/record_columns.py`.

use model::callee::{apart, Apart};
use model::lent::{Cell, Lent};
use model::recorded::{records, u16s, Record};
use model::table;
use std::cmp::Ordering;
use std::fmt::Debug;
use tezhukor::boundary::questions::decide_by_order;
use tezhukor::boundary::{self, Counted};
use tezhukor::codes::OPEN;
use tezhukor::contexts::NONE;
use tezhukor::forms::{CALL, METHOD_CALL, PAREN};
use tezhukor::sizes::{CONTEXT_UNIT, MOST_CELLS, REFUSAL_UNIT, ROW_CELLS};
use tezhukor::{CalleeOrder, Refusal, Row, Token, Tree, Written};

/// Checks that a buffer holds an answer, and else what it was lent with.
fn holds<Of: Cell + Debug>(mut buffer: Lent<Of>, answer: &[Of]) {
    assert_eq!(buffer.take(answer.len()).as_deref(), Some(answer));
}

/// The reply of one number that a record asks for.
fn reply(record: &Record) -> u32 {
    let done = CONTEXT_UNIT * record.context + record.count;
    REFUSAL_UNIT * u32::from(record.refusal) + u32::from(done)
}

#[test]
fn files() {
    let records = records("files");
    for record in &records {
        let mut table = Lent::new(record.lent);
        assert_eq!(boundary::load(&record.bytes, table.lend(record.lent)), reply(record));
        holds(table, &record.cells());
        if record.lent >= MOST_CELLS {
            let tree = Tree::load(&record.bytes);
            assert_eq!(tree.as_ref().err().map_or(0, |refusal| refusal.number()), record.refusal);
            if let Ok(tree) = tree {
                let table = table::read(&record.bytes).expect("a tree file");
                assert_eq!(tree.to_file(), table::write(&table.numbered()));
            }
        }
    }
    println!("files {}, different 0", records.len());
}

/// Checks the rows of a record in a callee order.
fn decides(record: &Record, order: CalleeOrder) {
    let Ok(tree) = Tree::load(&record.bytes) else {
        assert_eq!(tezhukor::rows(&record.bytes).map_err(Refusal::number), Err(record.refusal));
        return;
    };
    let mut rows = Lent::new(record.lent);
    let lent = rows.lend(record.lent);
    let (context, count, table) = (tree.context(), tree.count(), tree.cells());
    let refusal = match order {
        CalleeOrder::Crate => decide_by_order(order.number(), context, count, table, lent),
        CalleeOrder::Ours => boundary::decide(context, count, table, lent),
    };
    assert_eq!(refusal, record.refusal);
    holds(rows, &record.cells());
    if refusal == 0 {
        let meant: Vec<Row> = record.cells().chunks_exact(ROW_CELLS).map(Row::of_cells).collect();
        let has_pair: Vec<bool> = meant.iter().map(|row| row.has_outer_pair()).collect();
        // In the crate's order only some callees and what stands below them have other rows.
        let apart = match order {
            CalleeOrder::Crate => apart(&table::read(&record.bytes).expect("a file"), &has_pair),
            CalleeOrder::Ours => vec![Apart::Same; meant.len()],
        };
        for ((own, meant), apart) in tree.rows().iter().zip(&meant).zip(apart) {
            assert!(apart != Apart::Same || own == meant);
            assert!(apart != Apart::Callee || (own.pair, meant.pair) == (1, 0));
        }
    }
}

/// In the crate's callee order.
#[test]
fn rows() {
    let records = records("rows");
    records.iter().for_each(|record| decides(record, CalleeOrder::Crate));
    println!("rows {}, different 0", records.len());
}

/// In our callee order, where the two differ or are near to it.
#[test]
fn callees() {
    let records = records("callees");
    records.iter().for_each(|record| decides(record, CalleeOrder::Ours));
    println!("callees {}, different 0", records.len());
}

#[test]
fn tokens() {
    let records = records("tokens");
    for record in &records {
        let Ok(tree) = Tree::load(&record.bytes) else {
            let refusal = tezhukor::tokens(&record.bytes).map_err(Refusal::number);
            assert_eq!(refusal, Err(record.refusal));
            continue;
        };
        let mut tokens = Lent::new(record.lent);
        let lent = tokens.lend(record.lent);
        let written = boundary::write(tree.context(), tree.count(), tree.cells(), lent);
        let counted = boundary::counted(written).map_err(Refusal::number);
        let meant = if record.refusal == 0 { Ok(record.count) } else { Err(record.refusal) };
        assert_eq!(counted.map(|counted| counted.tokens), meant);
        holds(tokens, &record.cells());
        if let Ok(Counted { pairs, .. }) = counted {
            let tokens = Token::of_cells(&record.cells());
            assert_eq!(usize::from(pairs), tree.rows().iter().filter(|row| row.pair == 1).count());
            assert_eq!(usize::from(pairs), groups(&tokens, &tree, &[CALL, METHOD_CALL, PAREN]));
            assert_eq!(tree.written(), Ok(Written { tokens, pairs }));
        }
    }
    println!("tokens {}, different 0", records.len());
}

/// How many parentheses of a list of tokens are not those of its tree's nodes of some forms.
fn groups(tokens: &[Token], tree: &Tree, forms: &[u16]) -> usize {
    let is_own = |&number: &u16| tree.node(number).is_some_and(|node| forms.contains(&node.form));
    let open = tokens.iter().filter(|token| token.code == OPEN).count();
    open - (1..=tree.count()).filter(is_own).count()
}

/// Of the recorded lists that have a reading in context 0 none has fewer pairs than are written
/// for it.
#[test]
fn pairs_of_readings() {
    let [mut lists, mut theirs, mut ours] = [0; 3];
    for record in records("readings") {
        if record.refusal != 0 || record.context != NONE {
            continue;
        }
        let tokens = Token::of_cells(&u16s(&record.bytes));
        let tree = Tree::read(NONE, &tokens).expect("a tree");
        let [read, written] = [
            groups(&tokens, &tree, &[CALL, METHOD_CALL]),
            tree.written().expect("plain").pairs.into(),
        ];
        assert!(written <= read, "{tokens:?}");
        (lists, theirs, ours) = (lists + 1, theirs + read, ours + written);
    }
    println!("lists {lists}: pairs {theirs}, of ours {ours}; fewer than ours 0");
    assert!(lists > 1_000 && ours < theirs);
}

#[test]
fn readings() {
    let records = records("readings");
    for record in &records {
        let tokens = u16s(&record.bytes);
        let mut table = Lent::new(record.lent);
        let read = boundary::read(record.context, &tokens, table.lend(record.lent));
        // The context is the one in which the list is read, also where it is refused.
        assert_eq!(read, REFUSAL_UNIT * u32::from(record.refusal) + u32::from(record.count));
        holds(table, &record.cells());
        if record.refusal == 0 {
            let tree = Tree::read(record.context, &Token::of_cells(&tokens)).expect("a tree");
            assert_eq!(tree.cells(), record.cells());
            assert_eq!(tree.context(), record.context);
        }
    }
    println!("readings {}, different 0", records.len());
}

#[test]
fn saves() {
    let records = records("saves");
    for record in &records {
        let numbers = u16s(&record.bytes);
        let [context, count, table @ ..] = &numbers[..] else { unreachable!() };
        let mut file = Lent::new(record.lent);
        assert_eq!(boundary::save(*context, *count, table, file.lend(record.lent)), reply(record));
        holds(file, &record.written);
    }
    println!("saves {}, different 0", records.len());
}

#[test]
fn columns() {
    use boundary::columns::{from_columns, to_columns};
    let ways: [(_, fn(&[u8], &mut [u8]) -> u32); 2] =
        [("columns", to_columns), ("restored", from_columns)];
    for (name, rearrange) in ways {
        let records = records(name);
        for record in &records {
            let mut file = Lent::new(record.lent);
            assert_eq!(rearrange(&record.bytes, file.lend(record.lent)), reply(record));
            holds(file, &record.written);
            if name == "restored" && record.refusal != 12 {
                let tree = Tree::from_columns(&record.bytes).map_err(Refusal::number);
                let meant = match record.refusal {
                    0 => Ok(Tree::load(&record.written).expect("a tree file")),
                    refusal => Err(refusal),
                };
                assert_eq!(tree, meant);
            }
        }
        println!("{name} {}, different 0", records.len());
    }
}

#[test]
fn orders() {
    let records = records("orders");
    for record in &records {
        let (length, files) = record.bytes.split_first_chunk().expect("the first file's length");
        let (first, second) = files.split_at(u32::from_le_bytes(*length) as usize);
        assert_eq!(boundary::compare(first, second), reply(record));
        let order = match record.count {
            0 => Ordering::Less,
            1 => Ordering::Equal,
            _ => Ordering::Greater,
        };
        let meant = if record.refusal == 0 { Ok(order) } else { Err(record.refusal) };
        assert_eq!(tezhukor::cmp(first, second).map_err(Refusal::number), meant);
    }
    println!("orders {}, different 0", records.len());
}
