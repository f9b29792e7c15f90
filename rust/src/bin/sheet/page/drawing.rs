//! A tree as a drawing: owners above their operands, the items of a list below the owner.

use super::markup::{escaped, Mark};
use crate::braced::Braced;
use crate::words;
use std::collections::HashMap;
use std::fmt::Write;
use tezhukor::forms::*;
use tezhukor::text::Pair;
use tezhukor::{Node, Tree};

/// Of a character, of a node, and between nodes and levels, in pixels.
const CHARACTER: usize = 8;
const HEIGHT: usize = 26;
const GAP: usize = 14;
const LEVEL: usize = 56;

/// A label with more characters is cut.
const LONGEST: usize = 24;

/// The drawing, with the nodes that have pairs as these are marked.
pub fn svg(tree: &Tree, shown: &Braced, mark: impl Fn(&Pair) -> Mark) -> String {
    let widths = vec![0; usize::from(tree.count()) + 1];
    let (lines, nodes) = (String::new(), String::new());
    let marks = shown.text.pairs().iter().map(|pair| (pair.node, mark(pair))).collect();
    let mut drawing = Drawing { tree, shown, marks, widths, lines, nodes, levels: 0 };
    let width = drawing.measure(1) + 2 * GAP;
    drawing.place(1, GAP, 0);
    let height = LEVEL * drawing.levels + HEIGHT + 2 * GAP;
    format!(
        "<svg xmlns=\"http://www.w3.org/2000/svg\" role=\"img\" aria-label=\"the tree\" \
         width=\"{width}\" height=\"{height}\" viewBox=\"0 0 {width} {height}\">\n{}{}</svg>\n",
        drawing.lines, drawing.nodes
    )
}

struct Drawing<'a> {
    tree: &'a Tree,
    shown: &'a Braced,
    /// By node.
    marks: HashMap<u16, Mark>,
    /// How wide each node is with all below it.
    widths: Vec<usize>,
    lines: String,
    nodes: String,
    levels: usize,
}

impl Drawing<'_> {
    fn node(&self, number: u16) -> Node {
        self.tree.node(number).unwrap_or_default()
    }

    /// The operands of a node, and the items of its lists.
    fn operands(&self, number: u16) -> Vec<u16> {
        let node = self.node(number);
        let mut operands = Vec::new();
        for mut operand in [node.first, node.second] {
            while self.node(operand).form == LINK {
                let link = self.node(operand);
                operands.push(link.first);
                operand = link.second;
            }
            operands.extend((operand != 0).then_some(operand));
        }
        operands
    }

    fn own_width(&self, number: u16) -> usize {
        CHARACTER * self.label(number).chars().count() + 16
    }

    /// The width of operands beside each other.
    fn side_by_side(&self, operands: &[u16]) -> usize {
        let widths: usize = operands.iter().map(|&n| self.widths[usize::from(n)]).sum();
        widths + GAP * operands.len().saturating_sub(1)
    }

    fn measure(&mut self, number: u16) -> usize {
        let operands = self.operands(number);
        operands.iter().for_each(|&operand| {
            self.measure(operand);
        });
        let width = self.own_width(number).max(self.side_by_side(&operands));
        self.widths[usize::from(number)] = width;
        width
    }

    /// Draws a node and all below it from a place on, and gives where its middle is.
    fn place(&mut self, number: u16, left: usize, level: usize) -> usize {
        self.levels = self.levels.max(level);
        let (operands, width) = (self.operands(number), self.widths[usize::from(number)]);
        let (middle, top) = (left + width / 2, GAP + LEVEL * level);
        let mut at = left + (width - self.side_by_side(&operands)) / 2;
        for operand in operands {
            let below = self.place(operand, at, level + 1);
            let (from, to) = (top + HEIGHT, top + LEVEL);
            let line = format!("x1=\"{middle}\" y1=\"{from}\" x2=\"{below}\" y2=\"{to}\"");
            let _ = writeln!(self.lines, "<line {line}/>");
            at += self.widths[usize::from(operand)] + GAP;
        }
        let (own, label) = (self.own_width(number), escaped(&self.label(number)));
        let class = match self.marks.get(&number) {
            None => "node",
            Some(Mark::Depends) => "node depends",
            Some(_) => "node paired",
        };
        let (x, y, title) = (middle - own / 2, top + 18, escaped(&self.form(number)));
        let _ = writeln!(
            self.nodes,
            "<g id=\"node-{number}\" class=\"{class}\"><title>node {number}, {title}</title>\
             <rect x=\"{x}\" y=\"{top}\" width=\"{own}\" height=\"{HEIGHT}\" rx=\"5\"/>\
             <text x=\"{middle}\" y=\"{y}\">{label}</text></g>"
        );
        middle
    }

    /// A node's form, with its operator or the braces that stand for it.
    fn form(&self, number: u16) -> String {
        match self.shown.braces(number) {
            Some(braces) => format!("Binary `{braces}`"),
            None => words::form(self.node(number)),
        }
    }

    fn operator(&self, number: u16) -> String {
        self.form(number).split('`').nth(1).unwrap_or("?").to_string()
    }

    /// What is written in a node: its operator, or its name.
    fn label(&self, number: u16) -> String {
        let (node, text) = (self.node(number), &self.shown.text);
        // What the node itself adds behind its first operand.
        let behind = || {
            let (own, first) = (text.span(number), text.span(node.first));
            let tail = text.as_str().get(first.end..own.end).unwrap_or("");
            tail.trim_start_matches([')', ' ']).to_string()
        };
        let label = match node.form {
            BINARY | UNARY => self.operator(number),
            ASSIGN => "=".to_string(),
            CAST => "as".to_string(),
            CALL => "( )".to_string(),
            INDEX => "[ ]".to_string(),
            FIELD | AWAIT | TRY => behind(),
            METHOD_CALL => behind().split('(').next().unwrap_or("").to_string() + "( )",
            REFERENCE | TYPE_REFERENCE => ["&", "&mut"][usize::from(node.detail)].to_string(),
            TYPE_PTR => ["*const", "*mut"][usize::from(node.detail)].to_string(),
            _ if self.operands(number).is_empty() => text.of(number).to_string(),
            TYPE_PATH => text.of(number).split('<').next().unwrap_or("").to_string() + "< >",
            form => name(form).unwrap_or("?").to_string(),
        };
        match label.chars().count() <= LONGEST {
            true => label,
            false => label.chars().take(LONGEST - 1).chain(['…']).collect(),
        }
    }
}

#[cfg(test)]
mod tests {
    use super::*;
    use model::generate::Family;
    use model::table;
    use tezhukor::text::{Names, Text};

    /// Each node but the links is drawn once, within the drawing, with a line to its owner,
    /// and no two overlap.
    #[test]
    fn all_nodes_are_drawn() {
        for index in 0..60 {
            let table = Family::Mixed.tree(91, index);
            let tree = Tree::load(&table::write(&table)).expect("a tree");
            let text = Text::new(&tree, &tree.rows(), &Names::default());
            let drawn = svg(&tree, &text.into(), |_| Mark::Added);
            let links = (1..=tree.count()).filter(|&n| tree.node(n).unwrap().form == LINK).count();
            let nodes = usize::from(tree.count()) - links;
            assert_eq!(drawn.matches("<g id=").count(), nodes);
            assert_eq!(drawn.matches("<line ").count(), nodes - 1);
            let number = |line: &str, name: &str| {
                let behind = line.split(&format!(" {name}=\"")).nth(1).expect("a number");
                behind.split('"').next().and_then(|n| n.parse::<usize>().ok()).expect("a number")
            };
            let whole = number(&drawn, "width");
            let rects = drawn.split("<rect").skip(1);
            let mut boxes: Vec<[usize; 3]> =
                rects.map(|rect| ["y", "x", "width"].map(|name| number(rect, name))).collect();
            boxes.sort_unstable();
            assert!(boxes.iter().all(|[_, x, width]| x + width <= whole));
            let apart =
                |two: &[[usize; 3]]| two[0][0] < two[1][0] || two[0][1] + two[0][2] <= two[1][1];
            assert!(boxes.windows(2).all(apart), "{drawn}");
        }
    }
}
