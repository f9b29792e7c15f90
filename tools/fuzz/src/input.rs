//! What the bytes of an input ask.
//!
//! Thirteen bytes say which export is asked, in which callee order and of which node, how long
//! each lent buffer is beside what is needed, how the trees grow and where the second part
//! begins. Both parts are files, or numbers as files hold them, of which none is malformed.

use model::forms::{CALL, LINK, PATH};
use model::sizes::{MOST_TOKENS, NODE_CELLS, TOKEN_CELLS};
use model::table::{self, NodeTable, FIRST, SECOND};
use model::{accept, columns};

/// Where the bytes of the head stand.
pub const EXPORT: usize = 0;
pub const ORDER: usize = 1;
pub const NODE: usize = 2;
pub const LENGTHS: usize = 4;
pub const GROWTH: usize = 8;
pub const TIMES: usize = 9;
pub const SPLIT: usize = 11;
pub const HEAD: usize = 13;

/// An input, taken apart.
#[derive(Clone, PartialEq, Eq, Debug)]
pub struct Input {
    pub head: [u8; HEAD],
    pub first: Vec<u8>,
    pub second: Vec<u8>,
}

impl Input {
    /// Of any bytes; those that are missing are 0.
    pub fn of(bytes: &[u8]) -> Input {
        let mut head = [0; HEAD];
        let (own, parts) = bytes.split_at(bytes.len().min(HEAD));
        head[..own.len()].copy_from_slice(own);
        let split = u16::from_le_bytes([head[SPLIT], head[SPLIT + 1]]);
        let (first, second) = parts.split_at(parts.len().min(split.into()));
        Input { head, first: first.to_vec(), second: second.to_vec() }
    }

    /// Its bytes.
    pub fn bytes(&self) -> Vec<u8> {
        let mut head = self.head;
        let split = u16::try_from(self.first.len()).expect("no part is that long");
        head[SPLIT..HEAD].copy_from_slice(&split.to_le_bytes());
        [&head[..], &self.first, &self.second].concat()
    }

    fn number(&self, at: usize) -> u16 {
        u16::from_le_bytes([self.head[at], self.head[at + 1]])
    }

    /// The number of the callee order.
    pub fn order(&self) -> u16 {
        match self.head[ORDER] {
            255 => u16::MAX,
            order => order.into(),
        }
    }

    /// The number of the node that is named.
    pub fn node(&self) -> u16 {
        self.number(NODE)
    }

    /// How long one of the lent buffers is where so much is needed.
    pub fn length(&self, buffer: usize, needed: usize) -> usize {
        let byte = self.head[LENGTHS + buffer];
        let part = usize::from(byte >> 3);
        match byte & 7 {
            1 => needed.saturating_sub(1 + part),
            2 => needed + 1 + part,
            3 => 0,
            4 => needed * part / 32,
            5 => needed + 300,
            _ => needed,
        }
    }

    fn growth(&self, part: usize) -> Growth {
        let kind = self.head[GROWTH] >> (4 * part) & 15;
        Growth { kind, times: self.number(TIMES).into() }
    }

    /// The first part as a tree file.
    pub fn file(&self) -> Vec<u8> {
        self.growth(0).file(&self.first)
    }

    /// The second part as a tree file.
    pub fn second_file(&self) -> Vec<u8> {
        self.growth(1).file(&self.second)
    }

    /// The first part as a rearranged file.
    pub fn columns(&self) -> Vec<u8> {
        match (self.growth(0), columns::read(&self.first)) {
            (growth, Ok(table)) if growth.kind > 1 => columns::write(&growth.table(table)),
            (growth, _) => growth.bytes(&self.first),
        }
    }

    /// The first part as a table.
    pub fn table(&self) -> NodeTable {
        self.growth(0).table(lenient(&self.first))
    }

    /// The second part as a table.
    pub fn second_table(&self) -> NodeTable {
        self.growth(1).table(lenient(&self.second))
    }

    /// The first part as a context and the cells of a token list.
    pub fn tokens(&self) -> (u16, Vec<u16>) {
        let mut numbers = numbers(&self.first);
        let context = if numbers.is_empty() { 0 } else { numbers.remove(0) };
        (context, self.growth(0).tokens(numbers))
    }

    /// The numbers of the second part.
    pub fn second_numbers(&self) -> Vec<u16> {
        numbers(&self.second)
    }
}

/// The numbers of any bytes: each ends with the first byte below 128, its lowest bits count.
pub fn numbers(bytes: &[u8]) -> Vec<u16> {
    let add = |value: u32, byte: &u8| value << 7 | u32::from(byte & 0x7F);
    let runs = bytes.split_inclusive(|byte| byte & 0x80 == 0);
    runs.map(|run| run.iter().rev().fold(0, add) as u16).collect()
}

fn lenient(bytes: &[u8]) -> NodeTable {
    let numbers = numbers(bytes);
    let number = |at: usize| numbers.get(at).copied().unwrap_or(0);
    let cells = numbers.get(2..).unwrap_or(&[]).to_vec();
    NodeTable { context: number(0), count: number(1), cells }
}

/// How something short is made long.
#[derive(Copy, Clone)]
struct Growth {
    kind: u8,
    times: usize,
}

impl Growth {
    /// More of the last byte, or as a table grows.
    fn file(self, file: &[u8]) -> Vec<u8> {
        match accept::file(file) {
            Ok(table) if self.kind > 1 => table::write(&self.table(table)),
            _ => self.bytes(file),
        }
    }

    fn bytes(self, bytes: &[u8]) -> Vec<u8> {
        let last = bytes.last().filter(|_| self.kind == 1).copied();
        let more = last.map_or(Vec::new(), |last| vec![last; self.times]);
        [bytes, &more].concat()
    }

    /// Some cells more; for an accepted tree some parentheses round it, or a call of it with so
    /// many names.
    fn table(self, mut table: NodeTable) -> NodeTable {
        match self.kind {
            1 => table.cells.extend((0..self.times % 64).map(|cell| cell as u16 * 7)),
            2 | 3 if accept::refusal(&table) == 0 => {
                table.cells.truncate(NODE_CELLS * usize::from(table.count));
                return match self.kind {
                    2 => table.in_parens((self.times % 140) as u16),
                    _ => called(&table, (self.times % 2_100) as u16),
                };
            }
            _ => {}
        }
        table
    }

    /// The first token so often more; the first and the last; the first two; or the last two.
    fn tokens(self, cells: Vec<u16>) -> Vec<u16> {
        let times = self.times % (MOST_TOKENS + 4);
        let [one, two] = [1, 2].map(|tokens| cells.len().min(TOKEN_CELLS * tokens));
        let begins = |length: usize| cells[..length].repeat(times);
        let ends = |length: usize| cells[cells.len() - length..].repeat(times);
        match self.kind {
            1 => [begins(one), cells.clone()].concat(),
            2 => [begins(one), cells.clone(), ends(one)].concat(),
            3 => [begins(two), cells.clone()].concat(),
            4 => [cells.clone(), ends(two)].concat(),
            _ => cells,
        }
    }
}

/// An accepted tree called with so many names.
fn called(table: &NodeTable, names: u16) -> NodeTable {
    let first_link = table.count + 2;
    let second = if names == 0 { 0 } else { first_link };
    let mut cells = vec![CALL, 0, 0, 2, second, 0];
    for node in table.cells.chunks_exact(NODE_CELLS) {
        let start = cells.len();
        cells.extend(node);
        for operand in &mut cells[start..][FIRST..=SECOND] {
            *operand += u16::from(*operand != 0);
        }
    }
    for name in 0..names {
        let link = first_link + 2 * name;
        let next = if name + 1 == names { 0 } else { link + 2 };
        cells.extend([LINK, 0, 0, link + 1, next, 0, PATH, 0, 0, 0, 0, name]);
    }
    NodeTable { context: table.context, count: table.count + 1 + 2 * names, cells }
}
