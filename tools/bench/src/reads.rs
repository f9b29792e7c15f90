//! How often tezhukor_decide reads the cells of a table, as valgrind's lackey sees
//! it: every load of the machine code from the memory that holds the table.

use crate::cases::decide;
use model::sizes::ROW_CELLS;
use model::NodeTable;
use std::io::{BufRead, BufReader};
use std::process::{Command, Stdio};

/// A line for each tree file.
pub fn count_reads(files: &[&str]) {
    println!("| tree | nodes | reads a node | of them by the checks |");
    println!("|---|---:|---:|---:|");
    for file in files {
        let nodes = read(file).count;
        let [all, checks] =
            [ROW_CELLS, 0].map(|cells| loads(cells, file) as f64 / f64::from(nodes));
        println!("| {file} | {nodes} | {all:.1} | {checks:.1} |");
    }
}

/// What lackey looks at: says where the table lies, and decides once, with so many cells a
/// node for rows.
pub fn read_once(row_cells: usize, file: &str) {
    let tree = read(file);
    let mut rows = vec![0; row_cells * usize::from(tree.count)];
    let cells = tree.cells.as_ptr_range();
    println!("table {:x} {:x}", cells.start as usize, cells.end as usize);
    decide(&tree, &mut rows);
    // Nothing else is to read the table.
    std::process::exit(0);
}

fn read(file: &str) -> NodeTable {
    let bytes = std::fs::read(file).expect("a tree file");
    model::table::read(&bytes).expect("an accepted tree")
}

/// The loads from the table after it was said where it lies.
fn loads(row_cells: usize, file: &str) -> u64 {
    let mut child = Command::new("valgrind")
        .args(["--tool=lackey", "--trace-mem=yes", "--log-fd=1"])
        .arg(std::env::current_exe().expect("a program that runs"))
        .args(["read", &row_cells.to_string(), file])
        .stdout(Stdio::piped())
        .spawn()
        .expect("valgrind");
    let mut table = 0..0;
    let mut loads = 0;
    for line in BufReader::new(child.stdout.take().expect("a pipe")).split(b'\n') {
        let line = line.expect("what lackey says");
        if let Some(place) = line.strip_prefix(b"table ") {
            let place = String::from_utf8_lossy(place);
            let (start, end) = place.split_once(' ').expect("two places");
            table = hexadecimal(start)..hexadecimal(end);
        } else if let Some(load) = line.strip_prefix(b" L ") {
            let load = String::from_utf8_lossy(load);
            let (place, _) = load.split_once(',').expect("a place and a size");
            loads += u64::from(table.contains(&hexadecimal(place)));
        }
    }
    assert!(child.wait().expect("valgrind").success());
    loads
}

fn hexadecimal(digits: &str) -> u64 {
    u64::from_str_radix(digits.trim(), 16).expect("a hexadecimal number")
}
