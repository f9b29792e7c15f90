//! Measures how the work on a tree grows with the nodes that double it.
//!
//!     cargo run --release --bin nests
//!
//! Prints for some kinds of nests and numbers of doubling nodes how many
//! milliseconds all answers about the tree take.

use model::generate::{levels, Dice, Nest, Order, NESTS};
use std::time::Instant;

const DOUBLING: [u32; 4] = [12, 16, 20, 24];

fn main() {
    println!("| nest | {} |", DOUBLING.map(|number| number.to_string()).join(" | "));
    println!("|---|---|---|---|---|");
    for nest in &NESTS[..4] {
        let milliseconds = DOUBLING.map(|doubling| format!("{:.1}", measure(nest, doubling)));
        println!("| {} | {} |", nest.name, milliseconds.join(" | "));
    }
}

/// The milliseconds for a nest with so many doubling nodes, the least of three.
fn measure(nest: &Nest, doubling: u32) -> f64 {
    let draft = (1..).map(|length| nest.draft(length)).find(|draft| levels(draft) == doubling);
    let table =
        draft.expect("longer nests double more").number(0, Order::Printing, &mut Dice::new(0, 0));
    let times = (0..3).map(|_| {
        let start = Instant::now();
        std::hint::black_box(oracle::answers(table.context, table.count, &table.cells));
        start.elapsed().as_secs_f64() * 1e3
    });
    times.fold(f64::INFINITY, f64::min)
}
