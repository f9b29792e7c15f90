//! The forms of document 01, by number (expressions 1 to 40, types 41 to 55, and list
//! links): their names, labels and places for operands.

/// Defines the forms: constant, name and number.
macro_rules! forms {
    ($($constant:ident $name:literal $number:literal,)*) => {
        $(#[doc = $name] pub const $constant: u16 = $number;)*

        /// The name of a form, if there is such a form.
        pub fn name(form: u16) -> Option<&'static str> {
            match form {
                $($number => Some($name),)*
                _ => None,
            }
        }
    };
}

forms! {
    ARRAY "Array" 1,
    ASSIGN "Assign" 2,
    ASYNC "Async" 3,
    AWAIT "Await" 4,
    BINARY "Binary" 5,
    BLOCK "Block" 6,
    BREAK "Break" 7,
    CALL "Call" 8,
    CAST "Cast" 9,
    CLOSURE "Closure" 10,
    CONST "Const" 11,
    CONTINUE "Continue" 12,
    FIELD "Field" 13,
    FOR_LOOP "ForLoop" 14,
    GROUP "Group" 15,
    IF "If" 16,
    INDEX "Index" 17,
    INFER "Infer" 18,
    LET "Let" 19,
    LIT "Lit" 20,
    LOOP "Loop" 21,
    MACRO "Macro" 22,
    MATCH "Match" 23,
    METHOD_CALL "MethodCall" 24,
    PAREN "Paren" 25,
    PATH "Path" 26,
    RANGE "Range" 27,
    RAW_ADDR "RawAddr" 28,
    REFERENCE "Reference" 29,
    REPEAT "Repeat" 30,
    RETURN "Return" 31,
    STRUCT "Struct" 32,
    TRY "Try" 33,
    TRY_BLOCK "TryBlock" 34,
    TUPLE "Tuple" 35,
    UNARY "Unary" 36,
    UNSAFE "Unsafe" 37,
    VERBATIM "Verbatim" 38,
    WHILE "While" 39,
    YIELD "Yield" 40,
    TYPE_ARRAY "array type" 41,
    TYPE_FN_PTR "function pointer type" 42,
    TYPE_GROUP "group type" 43,
    TYPE_IMPL_TRAIT "impl type" 44,
    TYPE_INFER "inferred type" 45,
    TYPE_MACRO "macro type" 46,
    TYPE_NEVER "never type" 47,
    TYPE_PAREN "parenthesised type" 48,
    TYPE_PATH "path type" 49,
    TYPE_PTR "pointer type" 50,
    TYPE_REFERENCE "reference type" 51,
    TYPE_SLICE "slice type" 52,
    TYPE_TRAIT_OBJECT "dyn type" 53,
    TYPE_TUPLE "tuple type" 54,
    TYPE_VERBATIM "verbatim type" 55,
    LINK "list link" 56,
}

/// Details of Binary that are named somewhere.
pub mod operator {
    pub const ADD: u16 = 0;
    pub const SUB: u16 = 1;
    pub const MUL: u16 = 2;
    pub const REM: u16 = 4;
    pub const AND: u16 = 5;
    pub const OR: u16 = 6;
    pub const BIT_XOR: u16 = 7;
    pub const BIT_AND: u16 = 8;
    pub const BIT_OR: u16 = 9;
    pub const SHL: u16 = 10;
    pub const SHR: u16 = 11;
    pub const EQ: u16 = 12;
    pub const LT: u16 = 13;
    pub const LE: u16 = 14;
    pub const GT: u16 = 17;
    pub const ADD_ASSIGN: u16 = 18;
}

/// The classes of nodes.
#[derive(Copy, Clone, PartialEq, Eq, Debug)]
pub enum Class {
    Expression,
    Type,
    Link,
}

/// The class of a form, if there is such a form.
pub fn class(form: u16) -> Option<Class> {
    match form {
        1..=40 => Some(Class::Expression),
        41..=55 => Some(Class::Type),
        LINK => Some(Class::Link),
        _ => None,
    }
}

/// How many attribute numbers a form allows, from 0 on.
pub fn attributes(form: u16) -> u16 {
    match form {
        VERBATIM => 1,
        1..=40 => 3,
        _ => 1,
    }
}

/// How many detail numbers a form allows, from 0 on.
pub fn details(form: u16) -> u16 {
    match form {
        BINARY => 28,
        UNARY | MACRO | TYPE_MACRO => 3,
        BLOCK | FOR_LOOP | LOOP | WHILE | BREAK => 2,
        RANGE | FIELD | CLOSURE | VERBATIM | TYPE_VERBATIM => 2,
        TYPE_PTR | RAW_ADDR | REFERENCE | TYPE_REFERENCE => 2,
        TYPE_PATH => 4,
        TYPE_IMPL_TRAIT | TYPE_TRAIT_OBJECT => 8,
        _ => 1,
    }
}

/// Whether a node may have a symbol that is not 0: names, literals, members and methods, and
/// path types with a segment.
pub fn has_symbol(form: u16, detail: u16) -> bool {
    match form {
        PATH | LIT | FIELD | METHOD_CALL => true,
        TYPE_PATH => detail != 0,
        _ => false,
    }
}

/// What may stand in a place for an operand.
#[derive(Copy, Clone, PartialEq, Eq, Debug)]
pub enum Place {
    Nothing,
    Expression,
    OptionalExpression,
    Type,
    OptionalType,
    ExpressionList,
    TypeList,
    /// The item of a link, of either class.
    Item,
    /// The next link of a list.
    Next,
}

impl Place {
    /// Whether an operand must stand there.
    pub fn required(self) -> bool {
        matches!(self, Place::Expression | Place::Type | Place::Item)
    }
}

/// The two places of a node.
pub fn places(form: u16, detail: u16) -> [Place; 2] {
    use Place::*;
    match form {
        ASSIGN | BINARY | INDEX => [Expression, Expression],
        CAST => [Expression, Type],
        AWAIT | CLOSURE | FIELD | GROUP | LET | PAREN | RAW_ADDR | REFERENCE | TRY | UNARY => {
            [Expression, Nothing]
        }
        TYPE_PTR | TYPE_REFERENCE => [Type, Nothing],
        BREAK | RETURN | YIELD => [OptionalExpression, Nothing],
        TYPE_FN_PTR => [OptionalType, Nothing],
        RANGE => [OptionalExpression, OptionalExpression],
        CALL | METHOD_CALL => [Expression, ExpressionList],
        TYPE_PATH if detail == 2 => [Nothing, TypeList],
        TYPE_PATH | TYPE_IMPL_TRAIT | TYPE_TRAIT_OBJECT if detail == 3 => [OptionalType, Nothing],
        LINK => [Item, Next],
        _ => [Nothing, Nothing],
    }
}

/// Which of FixupContext's functions gives an operand's precedence.
#[derive(Copy, Clone, PartialEq, Eq, Debug)]
pub enum Side {
    Left,
    Right,
    Neither,
}

/// The side of the operand in the first (0) or second (1) place of an owner.
/// Roots are on neither side.
pub fn side(owner: u16, place: usize) -> Side {
    match (owner, place) {
        (ASSIGN | AWAIT | BINARY | CALL | CAST | FIELD | INDEX, 0) => Side::Left,
        (METHOD_CALL | RANGE | TRY, 0) => Side::Left,
        (ASSIGN | BINARY | RANGE, 1) => Side::Right,
        (BREAK | CLOSURE | LET | RAW_ADDR | REFERENCE | RETURN | UNARY | YIELD, 0) => Side::Right,
        _ => Side::Neither,
    }
}
