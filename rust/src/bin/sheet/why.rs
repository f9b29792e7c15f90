//! Why a pair was added: the owner's test, or a part of `parenthesize`.

use crate::prevents::Prevents;
use crate::show::{self, Shown};
use crate::words;
use tezhukor::boundary::questions::{self, Context, Handed, InContext, Place};
use tezhukor::forms::{Side, *};
use tezhukor::text::Names;
use tezhukor::{Binding, CalleeOrder, Lean, Node, Row, Tree};

/// The flag of a context that says: the next operator can begin generic arguments.
const GENERICS: u16 = 1 << 9;

/// A part of `parenthesize`: the flags that it looks at, the forms that it is about,
/// and what it says.
struct Part {
    flags: u16,
    is_about: fn(u16) -> bool,
    says: &'static str,
}

/// In the order of fixup.rs.
const PARTS: [Part; 7] = [
    Part {
        flags: 1 << 1,
        is_about: |form| form != LET,
        says: "part 1, it begins a statement, which would end behind it",
    },
    Part {
        flags: 1 | 1 << 1,
        is_about: |form| form == LET,
        says: "part 2, a let that begins a statement",
    },
    Part {
        flags: 1 << 3,
        is_about: |_| true,
        says: "part 3, it begins a match arm, which would end behind it",
    },
    Part {
        flags: 1 << 4,
        is_about: |form| form == STRUCT,
        says: "part 4, a struct in a condition, where its brace would open the block",
    },
    Part {
        flags: 1 << 5,
        is_about: |form| matches!(form, RETURN | YIELD),
        says: "part 5, no value at the end of a condition, where the body would be it",
    },
    Part {
        flags: 1 << 4 | 1 << 5,
        is_about: |form| matches!(form, BREAK | PATH | RANGE),
        says: "part 6, at the end of a condition, where it would take the body's brace",
    },
    Part {
        flags: 1 << 6,
        is_about: |form| form == BLOCK,
        says: "part 7, a block where a value may be left out, which would be the body",
    },
];

/// What is said of an added pair.
pub struct Told {
    pub node: u16,
    pub is_inner: bool,
    /// What it prevents, where the tree is plain, and on a line behind it who asks for it.
    pub said: String,
}

/// What is said of each added pair, by node number.
pub fn lines(tree: &Tree, names: Names) -> Vec<String> {
    told(tree, names).into_iter().map(|told| told.said).collect()
}

/// The same with the pairs.
pub fn told(tree: &Tree, names: Names) -> Vec<Told> {
    let prevents = Prevents::new(tree, &names);
    let shown = show::shown(tree, names);
    let (rows, owners) = (tree.rows(), owners(tree));
    let mut all = Vec::new();
    for (node, row) in (1..).zip(&rows) {
        let operand = || Operand::new(tree, &rows, &owners, node);
        let outer = || Told {
            node,
            is_inner: false,
            said: prevents.before(line(&operand(), &shown), node),
        };
        let inner = || Told { node, is_inner: true, said: inner_line(&operand(), &shown) };
        all.extend(row.has_outer_pair().then(outer));
        all.extend(row.has_inner_pair().then(inner));
    }
    all
}

/// Each node's owner and its place there, 0 or 1; none for the root.
fn owners(tree: &Tree) -> Vec<Option<(u16, u16)>> {
    let mut owners = vec![None; usize::from(tree.count()) + 1];
    for number in 1..=tree.count() {
        let node = tree.node(number).unwrap_or_default();
        for (place, operand) in [(0, node.first), (1, node.second)] {
            if operand != 0 {
                owners[usize::from(operand)] = Some((number, place));
            }
        }
    }
    owners
}

/// An expression with all that its pair depends on.
struct Operand<'a> {
    tree: &'a Tree,
    number: u16,
    node: Node,
    row: Row,
    owner: Option<(u16, u16)>,
    handed: Option<Handed>,
    /// The owner that is no link, for an item that of the list.
    named_owner: u16,
}

impl Operand<'_> {
    fn new<'a>(
        tree: &'a Tree,
        rows: &[Row],
        owners: &[Option<(u16, u16)>],
        number: u16,
    ) -> Operand<'a> {
        let owner = owners[usize::from(number)];
        let handed = owner.map(|(owner, place)| {
            let row = rows[usize::from(owner) - 1];
            let own = if row.has_outer_pair() { [0; 3] } else { context(row) };
            questions::handed(CalleeOrder::Ours, place, own, place_of(tree, owner))
        });
        let mut named_owner = owner.map_or(0, |owner| owner.0);
        while tree.node(named_owner).is_some_and(|node| node.form == LINK) {
            named_owner = owners[usize::from(named_owner)].map_or(0, |owner| owner.0);
        }
        let (node, row) = (tree.node(number).unwrap_or_default(), rows[usize::from(number) - 1]);
        Operand { tree, number, node, row, owner, handed, named_owner }
    }

    fn place(&self) -> Place<'_> {
        place_of(self.tree, self.number)
    }

    /// Whether the owner groups it.
    fn is_grouped(&self) -> bool {
        self.handed.is_some_and(|handed| handed.needs_group)
    }

    fn owner_node(&self) -> Node {
        self.owner.and_then(|(owner, _)| self.tree.node(owner)).unwrap_or_default()
    }

    /// The side of the owner on which it stands.
    fn side(&self) -> Side {
        self.owner.map_or(Side::Neither, |(_, place)| side(self.owner_node().form, place.into()))
    }

    /// The precedence in another context, by the function for the operand's side.
    fn precedence(&self, context: Context) -> u16 {
        let question = match self.side() {
            Side::Left => InContext::LeftPrecedence,
            Side::Right => InContext::RightPrecedence,
            Side::Neither => InContext::Precedence,
        };
        questions::answer_in(question, context, self.place())
    }

    /// Whether it is called.
    fn is_callee(&self) -> bool {
        self.side() == Side::Left && self.owner_node().form == CALL
    }

    /// Whether a Call groups it in that order.
    fn is_grouped_by(&self, order: CalleeOrder) -> bool {
        order.groups(self.tree.cells(), self.number, self.row.precedence)
    }

    /// The owner groups the operand if its precedence is smaller than this. None where
    /// it asks for something else: a Break, a Call of a named Field that is not weaker, no
    /// owner's test.
    fn bound(&self) -> Option<u16> {
        let owner = self.owner_node().form;
        let level = self.owners_precedence()?;
        let is_named = self.is_callee() && self.is_grouped() && self.row.precedence >= level;
        if owner == BREAK || is_named {
            return None;
        }
        let lean = self.owners_operator().and_then(Binding::of).map(|binding| binding.lean);
        Some(match (lean, self.side()) {
            (Some(Lean::Right), Side::Left) => Binding::of(Binding::RANGE)?.level + 1,
            (Some(Lean::Right), _) => 0,
            (Some(Lean::Neither), _) | (Some(Lean::Left), Side::Right) => level + 1,
            _ => level,
        })
    }

    fn asks(&self, context: Context) -> bool {
        questions::answer_in(InContext::Parenthesize, context, self.place()) == 1
    }

    /// Whether only the generics flag asks for the pair.
    fn is_for_generics(&self) -> bool {
        let [previous, next, flags] = context(self.row);
        let without = [previous, next, flags & !GENERICS];
        flags & GENERICS != 0
            && self.bound().is_some_and(|bound| self.precedence(without) >= bound)
            && !self.asks(context(self.row))
    }

    /// The part of parenthesize that asks.
    fn part(&self) -> &'static str {
        let [previous, next, flags] = context(self.row);
        let asks = |part: &&Part| {
            (part.is_about)(self.node.form) && self.asks([previous, next, flags & part.flags])
        };
        PARTS.iter().find(asks).map_or("no part", |part| part.says)
    }

    /// The owner's precedence: that of the operator on the operand's inner side.
    fn owners_precedence(&self) -> Option<u16> {
        match self.side() {
            Side::Left => Some(self.row.next_operator),
            Side::Right => Some(self.row.previous_operator),
            Side::Neither => None,
        }
    }

    /// The owner's test in words.
    fn test(&self) -> String {
        match (self.bound(), self.owners_precedence()) {
            (None, _) if self.is_callee() && self.node.form == GROUP => {
                "a named field in a group that is called, which would be a method call".to_string()
            }
            (None, _) if self.is_callee() => {
                "a named field that is called, which would be a method call".to_string()
            }
            (None, _) => "it begins with a label, which the break would take".to_string(),
            (Some(bound), Some(owner)) if bound == owner => {
                format!("it groups what is below {}", words::precedence(owner))
            }
            (Some(bound), _) => {
                format!("it groups what is not above {}", words::precedence(bound - 1))
            }
        }
    }

    /// Who asks for the pair.
    fn reason(&self) -> String {
        if !self.is_grouped() {
            return format!("parenthesize asks for it: {}", self.part());
        }
        let only = match self.is_for_generics() {
            true => "; only the generics flag makes it so, for `<` or `<<` behind a type name",
            false => "",
        };
        let asks = format!("the owner's test asks for it: {}{}{only}", self.test(), self.lean());
        match self.is_ours() {
            true => format!("{asks}; in our callee order, in the crate's it would have none"),
            false => asks,
        }
    }

    /// Whether it is a callee that our order groups and the crate's does not.
    fn is_ours(&self) -> bool {
        self.is_callee() && self.is_grouped() && !self.is_grouped_by(CalleeOrder::Crate)
    }

    /// The number of the owner's operator, where it has one between its operands.
    fn owners_operator(&self) -> Option<u16> {
        let owner = self.owner_node();
        match owner.form {
            BINARY => Some(owner.detail),
            ASSIGN => Some(Binding::ASSIGN),
            RANGE => Some(Binding::RANGE),
            _ => None,
        }
    }

    /// Which way the owner's operator leans, where it is that which asks for the pair: on
    /// an operand of its own level.
    fn lean(&self) -> String {
        let Some(operator) = self.owners_operator() else {
            return String::new();
        };
        let binding = Binding::of(operator);
        match binding.filter(|binding| binding.level == self.row.precedence) {
            None => String::new(),
            Some(binding) => format!("; {}", words::lean(operator, binding)),
        }
    }

    /// Which operand of which owner.
    fn standing(&self) -> String {
        if self.owner.is_none() {
            return "the root".to_string();
        }
        let owner = self.tree.node(self.named_owner).unwrap_or_default();
        let operand = match self.side() {
            Side::Left => "left operand",
            Side::Right => "right operand",
            Side::Neither => "operand",
        };
        format!("{operand} of node {}, {}", self.named_owner, words::form(owner))
    }
}

fn context(row: Row) -> Context {
    [row.previous_operator, row.next_operator, row.flags]
}

fn place_of(tree: &Tree, node: u16) -> Place<'_> {
    Place { table: tree.cells(), count: tree.count(), node }
}

fn line(operand: &Operand, shown: &Shown) -> String {
    let owner = operand.owners_precedence().map_or("none".to_string(), words::precedence);
    format!(
        "node {} `{}`, {}: precedence {}, the owner's {owner}; {}",
        operand.number,
        shown.of(operand.number),
        operand.standing(),
        words::precedence(operand.row.precedence),
        operand.reason(),
    )
}

fn inner_line(operand: &Operand, shown: &Shown) -> String {
    format!(
        "node {} `{}`, {}: an inner pair; {} has one whenever it has attributes, also inner ones",
        operand.number,
        shown.of(operand.number),
        operand.standing(),
        words::form(operand.node),
    )
}

#[cfg(test)]
mod tests {
    use super::*;
    use model::recorded::records;

    /// Each recorded tree: a pair is there just where the owner's test or a part of
    /// parenthesize asks for it, and each that is there has its reason; an owner that
    /// looks at the precedence groups just what is below its bound.
    #[test]
    fn reasons_are_the_rows() {
        let (mut pairs, mut others) = (0, 0);
        let mut only_ours = 0;
        for record in records("rows").into_iter().chain(records("callees")) {
            let Ok(tree) = Tree::load(&record.bytes) else {
                continue;
            };
            let (rows, owners) = (tree.rows(), owners(&tree));
            for number in (1..=tree.count()).filter(|&n| tree.node(n).unwrap().form <= YIELD) {
                let operand = Operand::new(&tree, &rows, &owners, number);
                let handed = operand.handed.map_or(context(operand.row), |handed| handed.context);
                assert_eq!(handed, context(operand.row));
                let precedence = operand.handed.map_or(operand.row.precedence, |h| h.precedence);
                assert_eq!(precedence, operand.row.precedence);
                let is_grouped = operand.is_grouped();
                let is_below = operand.bound().map(|bound| precedence < bound);
                assert!(is_below.is_none_or(|is_below| is_below == is_grouped));
                if operand.is_callee() {
                    assert_eq!(operand.is_grouped_by(CalleeOrder::Ours), is_grouped);
                    only_ours += u64::from(operand.is_ours());
                }
                let is_asked = operand.asks(context(operand.row));
                assert_eq!(operand.row.has_outer_pair(), is_grouped || is_asked);
                assert_eq!(is_asked, operand.part() != "no part");
                assert_eq!(operand.precedence(handed), operand.row.precedence);
                *if is_grouped || is_asked { &mut pairs } else { &mut others } += 1;
            }
        }
        assert!(pairs > 5_000 && others > 20_000, "{pairs} pairs, {others} others");
        assert!(only_ours > 5_000, "{only_ours} pairs of our order only");
    }
}
