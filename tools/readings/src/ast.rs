//! rustc's trees as node tables.

use crate::printed::Value;
use model::forms::*;
use model::table::FIRST;
use model::{sizes, NodeTable};

/// What a symbol stands for.
#[derive(Copy, Clone, Debug)]
pub enum Named<'a> {
    /// A path that is an expression.
    Path(&'a Value<'a>),
    /// An expression that is a literal.
    Literal(&'a Value<'a>),
    /// The name or the number of a field.
    Member(&'a str),
    /// The segment of a method call.
    Method(&'a Value<'a>),
    /// A path that is a type.
    Type(&'a Value<'a>),
}

/// A tree in the order of its file: parents before operands, and all nodes of the first
/// operand before those of the second. Its attribute-free parentheses are left out.
#[derive(Debug, Default)]
pub struct Taken<'a> {
    cells: Vec<u16>,
    /// What each node was printed as; a link as its item.
    pub values: Vec<&'a Value<'a>>,
    /// The parentheses that were left out, each with the number of what it stands round.
    pub parens: Vec<(&'a Value<'a>, usize)>,
    /// How many generic arguments of types are no types: lists have types alone.
    pub other_arguments: usize,
}

/// What stands in a place of a node.
#[derive(Copy, Clone)]
enum Operand<'a> {
    Nothing,
    Expression(&'a Value<'a>),
    Type(&'a Value<'a>),
    Expressions(&'a Value<'a>),
    Arguments(&'a Value<'a>),
}

/// Form, detail and operands of a node.
type Shape<'a> = (u16, u16, [Operand<'a>; 2]);

const BINARY_OPERATORS: [&str; 18] = [
    "Add", "Sub", "Mul", "Div", "Rem", "And", "Or", "BitXor", "BitAnd", "BitOr", "Shl", "Shr",
    "Eq", "Lt", "Le", "Ne", "Ge", "Gt",
];
const ASSIGNING: [&str; 10] = [
    "AddAssign",
    "SubAssign",
    "MulAssign",
    "DivAssign",
    "RemAssign",
    "BitXorAssign",
    "BitAndAssign",
    "BitOrAssign",
    "ShlAssign",
    "ShrAssign",
];

fn one_of(names: &[&str], name: &str) -> u16 {
    let found = names.iter().position(|other| *other == name);
    found.unwrap_or_else(|| panic!("no {name} among {names:?}")) as u16
}

/// Whether a value is an expression: other enums have a case of that name.
pub fn is_expression(value: &Value) -> bool {
    value.head == "Expr" && value.get("kind").is_some()
}

/// The attributes of an expression: 0 none, 1 inner ones alone, 2 some outer one.
fn attributes(value: &Value) -> u16 {
    let styles = value.field("attrs").inside.iter().map(|attribute| attribute.field("style").head);
    styles.map(|style| if style == "Outer" { 2 } else { 1 }).max().unwrap_or(0)
}

/// What stands in parentheses that have no attributes.
pub fn in_parens<'a>(value: &'a Value<'a>) -> Option<&'a Value<'a>> {
    let kind = value.field("kind");
    kind.inside.first().filter(|_| kind.head == "Paren" && attributes(value) == 0)
}

/// The tree of an expression, with the symbols that a function has for its names.
pub fn taken<'a>(
    value: &'a Value<'a>,
    symbol: &mut impl FnMut(Named<'a>) -> Result<u16, String>,
) -> Result<Taken<'a>, String> {
    let mut taken = Taken::default();
    taken.expression(value, symbol)?;
    Ok(taken)
}

impl<'a> Taken<'a> {
    /// The table in a context, if it has no more nodes than a table can count.
    pub fn table(&self, context: u16) -> Option<NodeTable> {
        let count = u16::try_from(self.values.len()).ok()?;
        Some(NodeTable { context, count, cells: self.cells.clone() })
    }

    /// Adds a node, and gives its number.
    fn node(&mut self, value: &'a Value<'a>, [form, attributes, detail, own]: [u16; 4]) -> usize {
        self.cells.extend([form, attributes, detail, 0, 0, own]);
        self.values.push(value);
        self.values.len()
    }

    /// Puts an operand into a place. The number of one in a table that is too large is no number.
    fn put(&mut self, node: usize, place: usize, operand: usize) {
        self.cells[sizes::NODE_CELLS * (node - 1) + FIRST + place] = operand as u16;
    }

    fn expression(
        &mut self,
        value: &'a Value<'a>,
        symbol: &mut impl FnMut(Named<'a>) -> Result<u16, String>,
    ) -> Result<usize, String> {
        if let Some(inner) = in_parens(value) {
            let number = self.expression(inner, symbol)?;
            self.parens.push((value, number));
            return Ok(number);
        }
        let kind = value.field("kind");
        let own = match kind.head {
            "Path" => symbol(Named::Path(value))?,
            "Lit" => symbol(Named::Literal(value))?,
            "Field" => symbol(Named::Member(kind.inside[1].head.trim_end_matches("#0")))?,
            "MethodCall" => symbol(Named::Method(kind.inside[0].field("seg")))?,
            _ => 0,
        };
        let (form, detail, operands) = shape(kind);
        let number = self.node(value, [form, attributes(value), detail, own]);
        self.operands(number, operands, symbol)?;
        Ok(number)
    }

    fn operands(
        &mut self,
        number: usize,
        operands: [Operand<'a>; 2],
        symbol: &mut impl FnMut(Named<'a>) -> Result<u16, String>,
    ) -> Result<(), String> {
        for (place, operand) in operands.into_iter().enumerate() {
            let at = match operand {
                Operand::Nothing => 0,
                Operand::Expression(value) => self.expression(value, symbol)?,
                Operand::Type(value) => self.ty(value, symbol)?,
                Operand::Expressions(list) => {
                    let items = list.inside.iter().map(Operand::Expression);
                    self.links(items, symbol)?
                }
                Operand::Arguments(list) => {
                    let types = list.inside.iter().filter_map(type_argument);
                    let types: Vec<Operand> = types.map(Operand::Type).collect();
                    self.other_arguments += list.inside.len() - types.len();
                    self.links(types.into_iter(), symbol)?
                }
            };
            self.put(number, place, at);
        }
        Ok(())
    }

    /// Adds the links of a list and gives the number of the first, 0 for none.
    fn links(
        &mut self,
        items: impl Iterator<Item = Operand<'a>>,
        symbol: &mut impl FnMut(Named<'a>) -> Result<u16, String>,
    ) -> Result<usize, String> {
        let (mut first, mut before) = (0, 0);
        for item in items {
            let (Operand::Expression(value) | Operand::Type(value)) = item else {
                continue;
            };
            let link = self.node(value, [LINK, 0, 0, 0]);
            if before == 0 {
                first = link;
            } else {
                self.put(before, 1, link);
            }
            self.operands(link, [item, Operand::Nothing], symbol)?;
            before = link;
        }
        Ok(first)
    }

    fn ty(
        &mut self,
        value: &'a Value<'a>,
        symbol: &mut impl FnMut(Named<'a>) -> Result<u16, String>,
    ) -> Result<usize, String> {
        let kind = value.field("kind");
        let own = match kind.head {
            "Path" => symbol(Named::Type(value))?,
            _ => 0,
        };
        let (form, detail, operands) = type_shape(kind);
        let number = self.node(value, [form, 0, detail, own]);
        self.operands(number, operands, symbol)?;
        Ok(number)
    }
}

/// The type that a generic argument is, if it is one.
fn type_argument<'a>(argument: &'a Value<'a>) -> Option<&'a Value<'a>> {
    let inner = argument.inside.first().filter(|_| argument.head == "Arg")?;
    inner.inside.first().filter(|_| inner.head == "Type")
}

/// 1 where a value has a head.
fn is(value: &Value, head: &str) -> u16 {
    u16::from(value.head == head)
}

fn delimiter(call: &Value) -> u16 {
    one_of(&["Parenthesis", "Bracket", "Brace"], call.field("args").field("delim").head)
}

/// The shape of an expression's kind. What document 01 has no form for is a Verbatim.
fn shape<'a>(kind: &'a Value<'a>) -> Shape<'a> {
    use Operand::{Expression, Expressions, Nothing, Type};
    let one = |operand: &'a Value<'a>| [Expression(operand), Nothing];
    let optional = |operand: &'a Value<'a>| operand.some().map_or(Nothing, Expression);
    let closed = [Nothing, Nothing];
    match (kind.head, &kind.inside[..]) {
        ("Array", _) => (ARRAY, 0, closed),
        ("Assign", [left, right, ..]) => (ASSIGN, 0, [Expression(left), Expression(right)]),
        ("Gen", [_, _, gen, ..]) if gen.head == "Async" => (ASYNC, 0, closed),
        ("Await", [inner, ..]) => (AWAIT, 0, one(inner)),
        ("Binary" | "AssignOp", [operator, left, right]) => {
            let operator = operator.field("node").head;
            let detail = match kind.head {
                "Binary" => one_of(&BINARY_OPERATORS, operator),
                _ => BINARY_OPERATORS.len() as u16 + one_of(&ASSIGNING, operator),
            };
            (BINARY, detail, [Expression(left), Expression(right)])
        }
        ("Block", [block, ..]) if block.field("rules").head != "Default" => (UNSAFE, 0, closed),
        ("Block", [_, label]) => (BLOCK, is(label, "Some"), closed),
        ("Break", [label, inner]) => (BREAK, is(label, "Some"), [optional(inner), Nothing]),
        ("Call", [callee, arguments]) => (CALL, 0, [Expression(callee), Expressions(arguments)]),
        ("Cast", [inner, ty]) => (CAST, 0, [Expression(inner), Type(ty)]),
        ("Closure", [closure]) => {
            let output = closure.field("fn_decl").field("output");
            (CLOSURE, is(output, "Ty"), one(closure.field("body")))
        }
        ("ConstBlock", _) => (CONST, 0, closed),
        ("Continue", _) => (CONTINUE, 0, closed),
        ("Field", [inner, member]) => {
            let is_number = member.head.starts_with(|c: char| c.is_ascii_digit());
            (FIELD, u16::from(is_number), one(inner))
        }
        ("ForLoop", _) => (FOR_LOOP, is(kind.field("label"), "Some"), closed),
        ("If", _) => (IF, 0, closed),
        ("Index", [inner, index, ..]) => (INDEX, 0, [Expression(inner), Expression(index)]),
        ("Underscore", _) => (INFER, 0, closed),
        ("Let", [_, inner, ..]) => (LET, 0, one(inner)),
        ("Lit", _) => (LIT, 0, closed),
        ("Loop", [_, label, ..]) => (LOOP, is(label, "Some"), closed),
        ("MacCall", [call]) => (MACRO, delimiter(call), closed),
        ("Match", _) => (MATCH, 0, closed),
        ("MethodCall", [call]) => {
            let (receiver, arguments) = (call.field("receiver"), call.field("args"));
            (METHOD_CALL, 0, [Expression(receiver), Expressions(arguments)])
        }
        ("Paren", [inner]) => (PAREN, 0, one(inner)),
        ("Path", _) => (PATH, 0, closed),
        ("Range", [start, end, limits]) => {
            (RANGE, is(limits, "Closed"), [optional(start), optional(end)])
        }
        ("AddrOf", [borrow, mutable, inner]) if borrow.head != "Pin" => {
            let form = if borrow.head == "Raw" { RAW_ADDR } else { REFERENCE };
            (form, is(mutable, "Mut"), one(inner))
        }
        ("Repeat", _) => (REPEAT, 0, closed),
        ("Ret", [inner]) => (RETURN, 0, [optional(inner), Nothing]),
        ("Struct", _) => (STRUCT, 0, closed),
        ("Try", [inner]) => (TRY, 0, one(inner)),
        ("TryBlock", _) => (TRY_BLOCK, 0, closed),
        ("Tup", _) => (TUPLE, 0, closed),
        ("Unary", [operator, inner]) => {
            (UNARY, one_of(&["Deref", "Not", "Neg"], operator.head), one(inner))
        }
        ("While", [_, _, label]) => (WHILE, is(label, "Some"), closed),
        ("Yield", [place]) if place.head == "Prefix" => {
            (YIELD, 0, [optional(&place.inside[0]), Nothing])
        }
        _ => (VERBATIM, 0, closed),
    }
}

/// The shape of a type's kind. What document 01 has no form for is a Verbatim.
fn type_shape<'a>(kind: &'a Value<'a>) -> Shape<'a> {
    use Operand::{Nothing, Type};
    let closed = [Nothing, Nothing];
    let to = |pointed: &'a Value<'a>| {
        (is(pointed.field("mutbl"), "Mut"), [Type(pointed.field("ty")), Nothing])
    };
    match (kind.head, &kind.inside[..]) {
        ("Array", _) => (TYPE_ARRAY, 0, closed),
        ("FnPtr", [pointer]) => (TYPE_FN_PTR, 0, output(pointer.field("decl"))),
        ("ImplTrait", [.., bounds]) => bounded(TYPE_IMPL_TRAIT, bounds),
        ("Infer", _) => (TYPE_INFER, 0, closed),
        ("MacCall", [call]) => (TYPE_MACRO, delimiter(call), closed),
        ("Never", _) => (TYPE_NEVER, 0, closed),
        ("Paren", _) => (TYPE_PAREN, 0, closed),
        ("Path", [_, path]) => {
            let (detail, operands) = last_segment(path);
            (TYPE_PATH, detail, operands)
        }
        ("Ptr", [pointed]) => {
            let (mutable, operands) = to(pointed);
            (TYPE_PTR, mutable, operands)
        }
        ("Ref", [_, referred]) => {
            let (mutable, operands) = to(referred);
            (TYPE_REFERENCE, mutable, operands)
        }
        ("Slice", _) => (TYPE_SLICE, 0, closed),
        ("TraitObject", [bounds, _]) => bounded(TYPE_TRAIT_OBJECT, bounds),
        ("Tup", _) => (TYPE_TUPLE, 0, closed),
        _ => (TYPE_VERBATIM, 0, closed),
    }
}

/// The output of a function's declaration, if it is written.
fn output<'a>(declaration: &'a Value<'a>) -> [Operand<'a>; 2] {
    let output = declaration.field("output");
    let written = output.inside.first().filter(|_| output.head == "Ty");
    [written.map_or(Operand::Nothing, Operand::Type), Operand::Nothing]
}

/// The detail and the operands that a path gives by its last segment.
fn last_segment<'a>(path: &'a Value<'a>) -> (u16, [Operand<'a>; 2]) {
    let last = path.field("segments").inside.last().expect("a segment");
    let arguments = last.field("args").some();
    match arguments.map(|arguments| (arguments.head, &arguments.inside[0])) {
        Some(("AngleBracketed", list)) => {
            (2, [Operand::Nothing, Operand::Arguments(list.field("args"))])
        }
        Some(("Parenthesized", arguments)) => (3, output(arguments)),
        _ => (1, [Operand::Nothing, Operand::Nothing]),
    }
}

/// A type by the last of its bounds. Generic arguments of a bound are none of a node's.
fn bounded<'a>(form: u16, bounds: &'a Value<'a>) -> Shape<'a> {
    let last = bounds.inside.last().expect("a bound");
    let closed = [Operand::Nothing, Operand::Nothing];
    match last.head {
        "Trait" => match last_segment(last.inside[0].field("trait_ref").field("path")) {
            (2, _) => (form, 2, closed),
            (detail, operands) => (form, detail, operands),
        },
        "Outlives" => (form, 4, closed),
        _ => (form, 5, closed),
    }
}
