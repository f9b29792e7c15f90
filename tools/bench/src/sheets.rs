//! Trees like surveyors' sheets: formulas over few names and numbers, sums and products, calls
//! and method calls on them, members, indexes, casts, with comparisons or an assignment at the
//! top.

use model::forms::{operator::*, *};
use model::generate::Dice;
use model::sizes::NODE_CELLS;
use model::table::{NodeTable, FIRST};
use tezhukor::contexts;

/// A large sheet ends with the argument that takes it to so many nodes.
const LARGE: usize = 1_000;

/// So many names and numbers are in use on a unit.
const NAMES: usize = 60;
const NUMBERS: usize = 25;

/// A sheet that grows, its nodes numbered from the root on.
pub struct Sheet {
    cells: Vec<u16>,
    dice: Dice,
}

impl Sheet {
    /// One of many, by a seed and an index.
    pub fn made(seed: u64, index: u64, make: fn(&mut Sheet)) -> NodeTable {
        let mut sheet = Sheet { cells: Vec::new(), dice: Dice::new(seed, index) };
        make(&mut sheet);
        let count = (sheet.cells.len() / NODE_CELLS) as u16;
        NodeTable { context: contexts::NONE, count, cells: sheet.cells }
    }

    /// A formula, or comparisons or an assignment of formulas.
    pub fn make(&mut self) {
        let levels = self.dice.between(2, 6);
        match self.dice.below(10) {
            0..=2 => self.pair(BINARY, AND, |sheet| sheet.comparison(levels)),
            3 | 4 => self.comparison(levels),
            5 => self.pair(ASSIGN, 0, |sheet| sheet.formula(levels)),
            _ => self.formula(levels),
        }
    }

    /// A call of many.
    pub fn large(&mut self) {
        self.called(CALL, 0, |sheet| {
            let is_more = sheet.cells.len() < NODE_CELLS * LARGE;
            is_more.then_some(Sheet::make)
        });
    }

    /// A node, which gives its place.
    fn node(&mut self, form: u16, detail: u16, symbol: u16) -> usize {
        self.cells.extend([form, 0, detail, 0, 0, symbol]);
        self.cells.len() - NODE_CELLS
    }

    /// Puts an operand into a node's first (0) or second (1) place.
    fn operand(&mut self, node: usize, place: usize, plant: impl FnOnce(&mut Self)) {
        self.cells[node + FIRST + place] = (self.cells.len() / NODE_CELLS + 1) as u16;
        plant(self);
    }

    fn pair(&mut self, form: u16, detail: u16, mut plant: impl FnMut(&mut Self)) {
        let node = self.node(form, detail, 0);
        self.operand(node, 0, &mut plant);
        self.operand(node, 1, &mut plant);
    }

    fn comparison(&mut self, levels: usize) {
        let operator = self.dice.pick(&[LT, LE, GT, EQ]);
        self.pair(BINARY, operator, |sheet| sheet.formula(levels / 2));
    }

    /// A name: the first ones are in use most.
    fn name(&mut self) -> u16 {
        let most = 1 + self.dice.below(NAMES);
        1 + self.dice.below(most) as u16
    }

    fn formula(&mut self, levels: usize) {
        let name = self.name();
        if levels == 0 || self.dice.percent(20) {
            let number = (NAMES + 1 + self.dice.below(NUMBERS)) as u16;
            match self.dice.percent(70) {
                true => self.node(PATH, 0, name),
                false => self.node(LIT, 0, number),
            };
            return;
        }
        let below = |sheet: &mut Self| sheet.formula(levels - 1);
        match self.dice.below(20) {
            0..=9 => {
                let operator = self.dice.pick(&[ADD, ADD, SUB, SUB, MUL, MUL, MUL + 1]);
                self.pair(BINARY, operator, below);
            }
            form @ 10..=13 => {
                let (form, symbol) = if form < 12 { (CALL, 0) } else { (METHOD_CALL, name) };
                let mut left = self.dice.below(4);
                self.called(form, symbol, |_| {
                    let is_more = left > 0;
                    left = left.saturating_sub(1);
                    is_more.then_some(below)
                });
            }
            14 | 15 => self.alone(FIELD, 0, name, below),
            16 => self.pair(INDEX, 0, below),
            17 => {
                let node = self.node(CAST, 0, 0);
                self.operand(node, 0, below);
                self.operand(node, 1, |sheet| {
                    sheet.node(TYPE_PATH, 1, name);
                });
            }
            18 => self.alone(REFERENCE, 0, 0, below),
            _ => self.alone(UNARY, 2, 0, below),
        }
    }

    fn alone(&mut self, form: u16, detail: u16, symbol: u16, plant: impl FnOnce(&mut Self)) {
        let node = self.node(form, detail, symbol);
        self.operand(node, 0, plant);
    }

    /// A call of a name with arguments as long as there is a next one.
    fn called<Plant: FnOnce(&mut Self)>(
        &mut self,
        form: u16,
        symbol: u16,
        mut next: impl FnMut(&Self) -> Option<Plant>,
    ) {
        let mut owner = self.node(form, 0, symbol);
        self.operand(owner, 0, |sheet| {
            let name = sheet.name();
            sheet.node(PATH, 0, name);
        });
        while let Some(argument) = next(self) {
            self.cells[owner + FIRST + 1] = (self.cells.len() / NODE_CELLS + 1) as u16;
            owner = self.node(LINK, 0, 0);
            self.operand(owner, 0, argument);
        }
    }
}
