//! The inputs that are kept: a line for each, in hexadecimal.

use crate::ask::EXPORTS;
use crate::input::{Input, EXPORT, GROWTH, HEAD, LENGTHS, NODE, ORDER, TIMES};
use crate::make::set;
use model::codes::{CLOSE, COMMA, EQUALS, MINUS, NAME, OPEN, STRUCT};
use model::forms::{operator, BINARY, PATH};
use model::recorded::{records, u16s};
use model::sizes::{LAST_BINARY, MOST_LEVELS, MOST_NODES, MOST_TOKENS};
use model::{accept, columns, table};
use std::path::{Path, PathBuf};

/// Where the corpus is.
pub fn path() -> PathBuf {
    Path::new(env!("CARGO_MANIFEST_DIR")).join("corpus")
}

/// The bytes of a line.
pub fn of_hex(line: &str) -> Option<Vec<u8>> {
    let digits = line.trim().as_bytes().chunks(2);
    let byte = |pair: &[u8]| u8::from_str_radix(std::str::from_utf8(pair).ok()?, 16).ok();
    digits.map(byte).collect()
}

/// The line of an input.
pub fn hex(input: &[u8]) -> String {
    input.iter().map(|byte| format!("{byte:02x}")).collect()
}

/// The inputs of a file, none if it is not there.
pub fn read(path: &Path) -> Vec<Input> {
    let text = std::fs::read_to_string(path).unwrap_or_default();
    let lines = text.lines().filter(|line| !line.starts_with('#'));
    lines.map(|line| Input::of(&of_hex(line).expect("hexadecimal"))).collect()
}

/// Writes inputs to a file.
pub fn write(path: &Path, inputs: &[Input]) {
    let lines: Vec<String> = inputs.iter().map(|input| hex(&input.bytes()) + "\n").collect();
    std::fs::write(path, lines.concat()).expect("the file can be written");
}

/// An input with those parts for an export, named by its number.
fn input(export: usize, first: Vec<u8>, second: Vec<u8>) -> Input {
    let mut input = Input { head: [0; HEAD], first, second };
    input.head[EXPORT] = export as u8;
    set(&mut input, NODE, 1);
    input
}

/// Which exports a recording is for, by their numbers.
const RECORDED: [(&str, &[usize]); 6] = [
    ("files", &[0, 1, 3, 10]),
    ("rows", &[3, 9, 13, 14, 15, 16, 17, 18, 19]),
    ("saves", &[1, 7, 8]),
    ("tokens", &[4]),
    ("columns", &[10, 2]),
    ("restored", &[11, 12]),
];

/// What `crates/recorded/data` asks, the shorter ones.
pub fn recorded() -> Vec<Input> {
    const SHORT: usize = 400;
    let mut inputs = Vec::new();
    for (name, exports) in RECORDED {
        let short = records(name).into_iter().filter(|record| record.bytes.len() <= SHORT);
        for (at, record) in short.enumerate() {
            let export = exports[at % exports.len()];
            let mut one = input(export, record.bytes.clone(), record.bytes);
            one.head[LENGTHS] = (at / exports.len() % 3) as u8;
            inputs.push(one);
        }
    }
    for record in records("readings").iter().filter(|record| record.bytes.len() <= SHORT) {
        let cells = u16s(&record.bytes);
        let first = table::numbers([record.context].iter().chain(&cells));
        inputs.push(input(5, first, Vec::new()));
    }
    inputs
}

/// `a - b * c - d`, of three operators.
const SUM: [[u16; 6]; 7] = [
    [BINARY, 0, operator::SUB, 2, 7, 0],
    [BINARY, 0, operator::SUB, 4, 3, 0],
    [BINARY, 0, operator::MUL, 5, 6, 0],
    [PATH, 0, 0, 0, 0, 1],
    [PATH, 0, 0, 0, 0, 2],
    [PATH, 0, 0, 0, 0, 3],
    [PATH, 0, 0, 0, 0, 4],
];

/// Each export at the bounds of nodes and of levels, with all operators open; token lists at the
/// bounds of tokens, nodes and levels.
pub fn at_bounds() -> Vec<Input> {
    let nodes = SUM.len();
    let tree = table::numbers([0, nodes as u16].iter().chain(SUM.iter().flatten()));
    let by_columns = columns::write(&accept::file(&tree).expect("a tree"));
    // What stands above the tree moves its numbers.
    let entries = |moved: u16| {
        let entry = |node: u16| [node + moved, 0, LAST_BINARY];
        [vec![3], (1..=3).flat_map(entry).collect::<Vec<u16>>()].concat()
    };
    let mut inputs = Vec::new();
    for export in 0..EXPORTS.len() {
        let names = (MOST_NODES - nodes - 1) / 2;
        for (kind, times, moved) in [
            (0, 0, 0),
            (3, names, 1),
            (3, names + 1, 1),
            (2, MOST_LEVELS - 3, MOST_LEVELS as u16 - 3),
            (2, MOST_LEVELS - 2, MOST_LEVELS as u16 - 2),
        ] {
            for order in [0, 1] {
                let second = match EXPORTS[export] {
                    "decide_open" => table::numbers(&entries(moved)),
                    _ => tree.clone(),
                };
                let first = match EXPORTS[export] {
                    "from_columns" | "load_columns" => by_columns.clone(),
                    _ => tree.clone(),
                };
                let mut one = input(export, first, second);
                one.head[ORDER] = order;
                one.head[GROWTH] = kind;
                set(&mut one, TIMES, times as u16);
                inputs.push(one);
            }
        }
    }
    let lists: [(u8, &[u16]); 8] = [
        (1, &[MINUS, NAME]),
        (1, &[OPEN]),
        (2, &[OPEN, NAME, CLOSE]),
        (2, &[OPEN, STRUCT, CLOSE]),
        (3, &[NAME, EQUALS, NAME]),
        (3, &[NAME, MINUS, NAME]),
        (3, &[NAME, OPEN, NAME]),
        (4, &[NAME, OPEN, NAME, COMMA, NAME]),
    ];
    for (kind, codes) in lists {
        for bound in [MOST_LEVELS, MOST_NODES / 2, MOST_NODES, MOST_TOKENS / 2, MOST_TOKENS] {
            for times in bound - 4..bound + 2 {
                let cells: Vec<u16> = codes.iter().flat_map(|&code| [code, 0]).collect();
                let mut one = input(5, table::numbers([0].iter().chain(&cells)), Vec::new());
                one.head[GROWTH] = kind;
                set(&mut one, TIMES, times as u16);
                inputs.push(one);
            }
        }
    }
    inputs
}
