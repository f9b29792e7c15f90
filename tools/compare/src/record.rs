//! The data of the program `spines`: the stems that right spines are put together from,
//! and for each block of spines the digest of the crate's rows.

use crate::spines::{compare, set};
use model::generate::{Piece, Spines};
use model::sizes::NODE_CELLS;
use std::path::PathBuf;

/// The most nodes of a stem.
const NODES: usize = 4;

/// The bytes of a digest.
const DIGEST: usize = 6;

/// Compares the spines of so many forms and writes the data. Gives how often rows differ.
pub fn record(length: u32) -> u64 {
    let (different, digests) = compare(length);
    let bytes = digests.iter().flat_map(|digest| digest.to_le_bytes()[..DIGEST].to_vec());
    write("stems", &stems());
    write(&format!("digests{length}"), &bytes.collect::<Vec<_>>());
    different
}

/// A stem has the number of its nodes in a byte, then six bytes for each of four nodes,
/// zeros for those that it has not.
fn stems() -> Vec<u8> {
    let Spines { nexts, ends, forms, .. } = set(1);
    let kinds = set(3).forms;
    let nexts = nexts.into_iter().map(Piece::of_some);
    let others = [ends, forms, kinds].into_iter().flatten().map(Piece::of);
    let bytes = |piece: Piece| {
        let mut bytes = vec![piece.nodes() as u8];
        bytes.extend(piece.cells().iter().map(|&cell| cell as u8));
        assert!(bytes.len() <= 1 + NODE_CELLS * NODES, "a stem of many nodes");
        bytes.resize(1 + NODE_CELLS * NODES, 0);
        bytes
    };
    nexts.chain(others).flat_map(bytes).collect()
}

fn write(name: &str, bytes: &[u8]) {
    let folder = PathBuf::from(env!("CARGO_MANIFEST_DIR")).join("../../crates/spines/data");
    std::fs::write(folder.join(name), bytes).expect("crates/spines/data is there");
}
