//! What lies behind a row: the crate's single functions, asked of a node; and rows in either
//! callee order.
//!
//! Questions have the numbers of `crates/answers_questions/specs` and `crates/answers_cells/specs`.

use super::library;
use model::CalleeOrder;

/// [`decide`](super::decide) in a callee order, by its number: 0 the crate's, any other ours.
pub fn decide_by_order(
    order: u16,
    context: u16,
    count: u16,
    table: &[u16],
    rows: &mut [u16],
) -> u16 {
    // SAFETY: pointers and lengths are those of slices, of which none overlaps
    // another; the function demands nothing else of its arguments.
    unsafe {
        library::tezhukor_decide_by_order(
            order,
            context,
            count,
            table.as_ptr(),
            table.len(),
            rows.as_mut_ptr(),
            rows.len(),
        )
    }
}

/// A context: previous operator, next operator and flags, as in a row.
pub type Context = [u16; 3];

/// A node of a table.
#[derive(Copy, Clone, Debug)]
pub struct Place<'a> {
    pub table: &'a [u16],
    pub count: u16,
    pub node: u16,
}

/// Defines the questions about a node by itself: name, and the function's name in the
/// crate.
macro_rules! questions {
    ($($name:ident $function:literal,)*) => {
        /// A question about a node by itself.
        #[derive(Copy, Clone, PartialEq, Eq, Debug)]
        #[repr(u16)]
        pub enum Question {
            $(#[doc = $function] $name,)*
        }

        impl Question {
            /// All questions, by number.
            pub const ALL: [Question; 7] = [$(Question::$name,)*];

            /// The function's name in the crate.
            pub fn name(self) -> &'static str {
                match self {
                    $(Question::$name => $function,)*
                }
            }
        }
    };
}

questions! {
    PrecedenceOf "Precedence::of",
    RequiresSemi "requires_semi_to_be_stmt",
    RequiresComma "requires_comma_to_be_match_arm",
    LeadingLabel "expr_leading_label",
    TrailingBrace "expr_trailing_brace",
    TrailingPath "trailing_unparameterized_path",
    TypeTrailingBrace "type_trailing_brace",
}

/// The answer about a node: a precedence, or 1 for yes and 0 for no.
pub fn answer(question: Question, place: Place) -> u16 {
    let Place { table, count, node } = place;
    // SAFETY: the pointer and the length are those of a slice, which is only read;
    // the function demands nothing else of its arguments.
    unsafe { library::tezhukor_answer(question as u16, table.as_ptr(), table.len(), count, node) }
}

/// A question about an expression in a context.
#[derive(Copy, Clone, PartialEq, Eq, Debug)]
#[repr(u16)]
pub enum InContext {
    /// Whether `parenthesize` asks for a pair: 1, or 0.
    Parenthesize,
    /// The precedence as an operand on neither side.
    Precedence,
    /// `scan_left`: 1, or 0.
    ScanLeft,
    /// The precedence as a left operand.
    LeftPrecedence,
    /// The precedence as a right operand.
    RightPrecedence,
}

/// The answer about an expression in a context.
pub fn answer_in(question: InContext, context: Context, place: Place) -> u16 {
    let [previous, next, flags] = context;
    let Place { table, count, node } = place;
    let (asked, pointer, length) = (question as u16, table.as_ptr(), table.len());
    // SAFETY: as above.
    unsafe {
        library::tezhukor_fixup_answer(asked, previous, next, flags, pointer, length, count, node)
    }
}

/// `scan_right` of an expression: 0 Fail, 1 Bailout, 2 Consume.
pub fn scan_right(
    context: Context,
    precedence: u16,
    fail_offset: u16,
    bailout_offset: u16,
    place: Place,
) -> u16 {
    let [previous, next, flags] = context;
    let Place { table, count, node } = place;
    // SAFETY: as above.
    unsafe {
        library::tezhukor_scan_right(
            previous,
            next,
            flags,
            precedence,
            fail_offset,
            bailout_offset,
            table.as_ptr(),
            table.len(),
            count,
            node,
        )
    }
}

/// A function of fixup.rs that makes a context.
#[derive(Copy, Clone, PartialEq, Eq, Debug)]
#[repr(u16)]
pub enum Maker {
    None,
    NewStmt,
    NewMatchArm,
    NewCondition,
    LeftmostWithOperator,
    LeftmostWithDot,
    Rightmost,
}

/// The context that the function makes, from another one, two booleans in source
/// order, and a precedence. Some take less.
pub fn context(maker: Maker, from: Context, booleans: [bool; 2], precedence: u16) -> Context {
    let [previous, next, flags] = from;
    let [first, second] = booleans.map(u16::from);
    // SAFETY: the arguments are numbers, and the function demands nothing of them.
    [0, 1, 2].map(|cell| unsafe {
        let maker = maker as u16;
        library::tezhukor_context(maker, cell, previous, next, flags, first, second, precedence)
    })
}

/// The question for a first operand in our callee order; 0 is for one in the crate's.
const OUR_FIRST: u16 = 2;

/// What an owner hands to an operand.
#[derive(Copy, Clone, PartialEq, Eq, Debug)]
pub struct Handed {
    pub precedence: u16,
    pub context: Context,
    /// The owner groups the operand.
    pub needs_group: bool,
}

/// What a node in its own context hands to its first operand (0) or its second (1), in a
/// callee order.
pub fn handed(order: CalleeOrder, operand: u16, own: Context, owner: Place) -> Handed {
    let [previous, next, flags] = own;
    let Place { table, count, node } = owner;
    let (pointer, length) = (table.as_ptr(), table.len());
    let asked = match (order, operand) {
        (CalleeOrder::Ours, 0) => OUR_FIRST,
        _ => operand,
    };
    // SAFETY: as above.
    let [previous, next, flags, precedence, group] = [0, 1, 2, 3, 4].map(|cell| unsafe {
        library::tezhukor_handed(asked, cell, previous, next, flags, pointer, length, count, node)
    });
    Handed { precedence, context: [previous, next, flags], needs_group: group == 1 }
}
