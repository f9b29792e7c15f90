//! The recorded answers of `crates/recorded/data`.

use crate::sizes::{NODE_CELLS, ROW_CELLS, TOKEN_CELLS};

/// A record: how many cells or bytes are lent, what is read, and what must be answered. The
/// context is that of a loaded file, or that in which a token list is read.
pub struct Record {
    pub lent: usize,
    pub bytes: Vec<u8>,
    pub refusal: u16,
    pub context: u16,
    pub count: u16,
    pub written: Vec<u8>,
}

impl Record {
    /// The cells that are written.
    pub fn cells(&self) -> Vec<u16> {
        u16s(&self.written)
    }
}

/// Bytes as numbers of two bytes, the lower first.
pub fn u16s(bytes: &[u8]) -> Vec<u16> {
    bytes.chunks_exact(2).map(|pair| u16::from_le_bytes([pair[0], pair[1]])).collect()
}

/// How many bytes a recording has for each that its counts count: those of the cells of a
/// node, a row or a token, one of a file that is saved, rearranged or put back, and none of an
/// order, which is the count itself.
fn each(name: &str) -> usize {
    match name {
        "files" | "readings" => 2 * NODE_CELLS,
        "rows" | "callees" => 2 * ROW_CELLS,
        "tokens" => 2 * TOKEN_CELLS,
        "saves" | "columns" | "restored" => 1,
        "orders" => 0,
        _ => unreachable!("{name} is no recording"),
    }
}

/// All records of a recording.
///
/// # Panics
///
/// If there is no such recording.
pub fn records(name: &str) -> Vec<Record> {
    let path = concat!(env!("CARGO_MANIFEST_DIR"), "/../../crates/recorded/data/");
    let bytes = std::fs::read(format!("{path}{name}")).expect("the recording is there");
    let (mut records, mut rest) = (Vec::new(), &bytes[..]);
    while !rest.is_empty() {
        let header = u16s(&rest[..12]);
        let [lent, low, high, refusal, context, count] = header[..] else { unreachable!() };
        let length = usize::from(low) | usize::from(high) << 16;
        let written = if refusal == 0 { each(name) * usize::from(count) } else { 0 };
        records.push(Record {
            lent: lent.into(),
            bytes: rest[12..12 + length].to_vec(),
            refusal,
            context,
            count,
            written: rest[12 + length..12 + length + written].to_vec(),
        });
        rest = &rest[12 + length + written..];
    }
    records
}
