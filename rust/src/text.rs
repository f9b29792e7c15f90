//! Trees as text, with the pairs of their rows.

pub mod lexer;
mod names;
pub mod open;
mod spelled;
mod symbols;

pub use names::{Kind, Names};
pub use spelled::Unspelled;
pub(crate) use spelled::{infixes, words, Spelled};
pub use symbols::{NoSymbolLeft, Symbols};

use crate::{Node, Row, Tree};
use model::codes::SPELLED;
use model::forms::*;
use std::fmt;
use std::ops::Range;

/// A pair of parentheses that was added round an expression.
#[derive(Copy, Clone, PartialEq, Eq, Hash, Debug)]
pub struct Pair {
    /// The expression's number.
    pub node: u16,
    /// Whether it stands behind the expression's attributes.
    pub is_inner: bool,
    /// At which bytes of the text its parentheses stand.
    pub open: usize,
    pub close: usize,
}

/// A tree as text.
#[derive(Clone, PartialEq, Eq, Debug)]
pub struct Text {
    text: String,
    /// By where they open.
    pairs: Vec<Pair>,
    /// Where each node's own text stands, within its outer pair.
    spans: Vec<Range<usize>>,
}

impl Text {
    /// A tree with its rows and the names of its symbols.
    ///
    /// ```
    /// use tezhukor::text::{Names, Text};
    /// use tezhukor::Tree;
    /// let [minus, other] = [[5, 0, 1, 2, 3, 0], [5, 0, 1, 4, 5, 0]];
    /// let name = |symbol| [26, 0, 0, 0, 0, symbol];
    /// let nodes = [minus, name(1), other, name(2), name(3)].concat();
    /// let tree = Tree::load(&[&[0, 5][..], &nodes].concat())?;
    /// let text = Text::new(&tree, &tree.rows(), &Names::new("offset\nstation\nstart"));
    /// assert_eq!(text.as_str(), "offset - (station - start)");
    /// let pair = text.pairs()[0];
    /// assert_eq!([pair.node.into(), pair.open, pair.close], [3, 9, 25]);
    /// assert_eq!(text.of(3), "station - start");
    /// # Ok::<(), tezhukor::Refusal>(())
    /// ```
    pub fn new(tree: &Tree, rows: &[Row], names: &Names) -> Text {
        let spans = vec![0..0; tree.count().into()];
        let shown = Text { text: String::new(), pairs: Vec::new(), spans };
        let names = names.clone().of(tree);
        let mut writer = Writer { tree, rows, names, shown, literal_end: 0, member_end: 0 };
        writer.node(1);
        writer.shown
    }

    pub fn as_str(&self) -> &str {
        &self.text
    }

    /// The pairs, by where they open.
    pub fn pairs(&self) -> &[Pair] {
        &self.pairs
    }

    /// A node's own text, within its outer pair; nothing for a link and for a node that is
    /// absent.
    pub fn of(&self, number: u16) -> &str {
        &self.text[self.span(number)]
    }

    /// At which bytes a node's own text stands.
    pub fn span(&self, number: u16) -> Range<usize> {
        let span = self.spans.get(usize::from(number).wrapping_sub(1));
        span.map_or(0..0, Range::clone)
    }
}

impl fmt::Display for Text {
    fn fmt(&self, f: &mut fmt::Formatter) -> fmt::Result {
        f.write_str(&self.text)
    }
}

struct Writer<'a> {
    tree: &'a Tree,
    rows: &'a [Row],
    names: Names,
    shown: Text,
    /// Where the last number ends: a dot there would become part of it.
    literal_end: usize,
    /// Where the last numbered member ends: a dot and a number there would become a fraction.
    member_end: usize,
}

impl Writer<'_> {
    /// Puts what would be read as part of the sign before it behind a blank.
    fn put(&mut self, text: &str) {
        if spelled::merges(&self.shown.text, text) {
            self.shown.text.push(' ');
        }
        self.shown.text.push_str(text);
    }

    fn name(&mut self, node: Node, kind: Kind) {
        let name = self.names.named(node.symbol, kind);
        self.put(&name);
        let end = self.shown.text.len();
        match kind {
            Kind::Literal if spelled::is_number(&name) => self.literal_end = end,
            Kind::Member => self.member_end = end,
            _ => {}
        }
    }

    /// Opens a pair of a node, and gives its place among the pairs.
    fn open(&mut self, node: u16, is_inner: bool, is_there: bool) -> Option<usize> {
        let (open, at) = (self.shown.text.len(), self.shown.pairs.len());
        is_there.then(|| {
            self.shown.pairs.push(Pair { node, is_inner, open, close: open });
            self.put("(");
            at
        })
    }

    fn close(&mut self, pair: Option<usize>) {
        if let Some(at) = pair {
            self.shown.pairs[at].close = self.shown.text.len();
            self.put(")");
        }
    }

    /// A node with its pairs; nothing for an absent operand.
    fn node(&mut self, number: u16) {
        let Some(node) = self.tree.node(number) else {
            return;
        };
        let at = usize::from(number) - 1;
        let row = self.rows[at];
        let outer = self.open(number, false, row.has_outer_pair());
        let start = self.shown.text.len();
        if node.attributes == 2 {
            self.put("#[..] ");
        }
        let inner = self.open(number, true, row.has_inner_pair());
        if node.form <= YIELD {
            self.expression(node);
        } else {
            self.ty(node);
        }
        self.close(inner);
        let own = &self.shown.text[start..];
        let start = start + own.len() - own.trim_start().len();
        self.shown.spans[at] = start..self.shown.text.len();
        self.close(outer);
    }

    fn expression(&mut self, node: Node) {
        match node.form {
            PATH => self.name(node, Kind::Name),
            LIT => self.name(node, Kind::Literal),
            ASSIGN => self.infix(node, " = "),
            BINARY => self.infix(node, &format!(" {} ", SPELLED[usize::from(node.detail)])),
            CAST => self.infix(node, " as "),
            RANGE => self.infix(node, ["..", "..="][usize::from(node.detail)]),
            UNARY => self.prefix(["*", "!", "-"][usize::from(node.detail)], node),
            REFERENCE => self.prefix(["&", "&mut "][usize::from(node.detail)], node),
            RAW_ADDR => self.prefix(["&raw const ", "&raw mut "][usize::from(node.detail)], node),
            LET => self.prefix("let .. = ", node),
            CLOSURE => self.prefix(["|..| ", "|..| -> .. "][usize::from(node.detail)], node),
            BREAK => self.jump(["break", "break 'a"][usize::from(node.detail)], node),
            RETURN => self.jump("return", node),
            YIELD => self.jump("yield", node),
            GROUP => self.node(node.first),
            PAREN => self.between("(", node.first, ")"),
            TRY | AWAIT | FIELD | INDEX | CALL | METHOD_CALL => self.behind(node),
            _ => self.closed(node),
        }
    }

    fn infix(&mut self, node: Node, sign: &str) {
        self.node(node.first);
        self.put(sign);
        self.node(node.second);
    }

    fn prefix(&mut self, sign: &str, node: Node) {
        self.put(sign);
        self.node(node.first);
    }

    fn jump(&mut self, word: &str, node: Node) {
        self.put(word);
        if node.first != 0 {
            self.put(" ");
            self.node(node.first);
        }
    }

    fn between(&mut self, open: &str, operand: u16, close: &str) {
        self.put(open);
        self.node(operand);
        self.put(close);
    }

    fn dot(&mut self, is_before_number: bool) {
        let end = self.shown.text.len();
        let is_in_fraction = is_before_number && self.member_end == end;
        self.put(if is_in_fraction || self.literal_end == end { " ." } else { "." });
    }

    /// The forms that stand behind their first operand.
    fn behind(&mut self, node: Node) {
        self.node(node.first);
        match node.form {
            TRY => self.put("?"),
            INDEX => self.between("[", node.second, "]"),
            CALL => self.arguments("(", node.second, ")"),
            form => {
                self.dot((form, node.detail) == (FIELD, 1));
                match (form, node.detail) {
                    (AWAIT, _) => self.put("await"),
                    (FIELD, 1) => self.name(node, Kind::Member),
                    (FIELD, _) => self.name(node, Kind::Name),
                    _ => {
                        self.name(node, Kind::Name);
                        self.arguments("(", node.second, ")");
                    }
                }
            }
        }
    }

    /// The items of a list, from its first link on.
    fn arguments(&mut self, open: &str, first: u16, close: &str) {
        self.put(open);
        let mut link = self.tree.node(first);
        while let Some(Node { first: item, second: next, .. }) = link {
            self.node(item);
            link = self.tree.node(next);
            if link.is_some() {
                self.put(", ");
            }
        }
        self.put(close);
    }

    /// Forms whose insides are trees of their own.
    fn closed(&mut self, node: Node) {
        let labelled = matches!(node.form, BLOCK | FOR_LOOP | LOOP | WHILE) && node.detail == 1;
        self.put(if labelled { "'a: " } else { "" });
        let text = match node.form {
            ARRAY => "[..]",
            ASYNC => "async { .. }",
            BLOCK => "{ .. }",
            CONST => "const { .. }",
            CONTINUE => "continue",
            FOR_LOOP => "for .. in .. { .. }",
            IF => "if .. { .. }",
            INFER => "_",
            LOOP => "loop { .. }",
            MACRO => ["m!(..)", "m![..]", "m!{ .. }"][usize::from(node.detail)],
            MATCH => "match .. { .. }",
            REPEAT => "[..; ..]",
            STRUCT => "S { .. }",
            TRY_BLOCK => "try { .. }",
            TUPLE => "(.., ..)",
            UNSAFE => "unsafe { .. }",
            WHILE => "while .. { .. }",
            VERBATIM => ["verbatim", "verbatim { .. }"][usize::from(node.detail)],
            _ => "..",
        };
        self.put(text);
    }

    fn ty(&mut self, node: Node) {
        match node.form {
            TYPE_PATH => self.path(node),
            TYPE_PTR => self.prefix(["*const ", "*mut "][usize::from(node.detail)], node),
            TYPE_REFERENCE => self.prefix(["&", "&mut "][usize::from(node.detail)], node),
            TYPE_INFER => self.put("_"),
            TYPE_NEVER => self.put("!"),
            TYPE_FN_PTR => self.output("fn(..)", node),
            TYPE_IMPL_TRAIT => self.bounds("impl ", node),
            TYPE_TRAIT_OBJECT => self.bounds("dyn ", node),
            TYPE_ARRAY => self.put("[..; ..]"),
            TYPE_SLICE => self.put("[..]"),
            TYPE_TUPLE => self.put("(.., ..)"),
            TYPE_PAREN => self.put("(..)"),
            TYPE_MACRO => self.put(["m!(..)", "m![..]", "m!{ .. }"][usize::from(node.detail)]),
            TYPE_VERBATIM => self.put(["verbatim", "verbatim { .. }"][usize::from(node.detail)]),
            _ => self.put(".."),
        }
    }

    fn path(&mut self, node: Node) {
        self.name(node, Kind::Type);
        match node.detail {
            2 => self.arguments("<", node.second, ">"),
            3 => self.output("(..)", node),
            _ => {}
        }
    }

    fn output(&mut self, before: &str, node: Node) {
        self.put(before);
        if node.first != 0 {
            self.put(" -> ");
            self.node(node.first);
        }
    }

    /// By the last bound.
    fn bounds(&mut self, word: &str, node: Node) {
        self.put(word);
        match node.detail {
            2 => self.put("B<..>"),
            3 => self.output("B(..)", node),
            4 => self.put("'a"),
            5 => self.put("use<..>"),
            6 => self.put("verbatim"),
            7 => self.put("verbatim { .. }"),
            _ => self.put("B"),
        }
    }
}
