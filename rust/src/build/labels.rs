//! What a node can be labelled with, by name, and the numbers that stand for it in a table.

use super::Type;
use model::codes::SPELLED;
use model::{contexts, forms};

/// Defines an enum whose cases have numbers.
macro_rules! numbered {
    ($(#[$about:meta])* $name:ident { $($(#[$says:meta])* $case:ident = $number:expr,)* }) => {
        $(#[$about])*
        #[derive(Copy, Clone, PartialEq, Eq, PartialOrd, Ord, Hash, Debug)]
        #[repr(u16)]
        pub enum $name {
            $($(#[$says])* $case = $number,)*
        }

        impl $name {
            /// All of them, by number.
            pub const ALL: &'static [$name] = &[$($name::$case,)*];

            /// Its number in a table.
            pub const fn number(self) -> u16 {
                self as u16
            }

            /// The one with that number, if there is one.
            pub fn numbered(number: u16) -> Option<$name> {
                $name::ALL.iter().copied().find(|case| case.number() == number)
            }
        }
    };
}

numbered! {
    /// The forms of expressions.
    ///
    /// ```
    /// use tezhukor::build::{path, Context, Form};
    /// let tree = path(1).tree(Context::None)?;
    /// let forms = tree.node(1).and_then(|root| Form::numbered(root.form));
    /// assert_eq!(forms, Some(Form::Path));
    /// # Ok::<(), tezhukor::build::Unbuilt>(())
    /// ```
    Form {
        Array = forms::ARRAY,
        Assign = forms::ASSIGN,
        Async = forms::ASYNC,
        Await = forms::AWAIT,
        Binary = forms::BINARY,
        Block = forms::BLOCK,
        Break = forms::BREAK,
        Call = forms::CALL,
        Cast = forms::CAST,
        Closure = forms::CLOSURE,
        Const = forms::CONST,
        Continue = forms::CONTINUE,
        Field = forms::FIELD,
        ForLoop = forms::FOR_LOOP,
        Group = forms::GROUP,
        If = forms::IF,
        Index = forms::INDEX,
        Infer = forms::INFER,
        Let = forms::LET,
        Lit = forms::LIT,
        Loop = forms::LOOP,
        Macro = forms::MACRO,
        Match = forms::MATCH,
        MethodCall = forms::METHOD_CALL,
        Paren = forms::PAREN,
        Path = forms::PATH,
        Range = forms::RANGE,
        RawAddr = forms::RAW_ADDR,
        Reference = forms::REFERENCE,
        Repeat = forms::REPEAT,
        Return = forms::RETURN,
        Struct = forms::STRUCT,
        Try = forms::TRY,
        TryBlock = forms::TRY_BLOCK,
        Tuple = forms::TUPLE,
        Unary = forms::UNARY,
        Unsafe = forms::UNSAFE,
        Verbatim = forms::VERBATIM,
        While = forms::WHILE,
        Yield = forms::YIELD,
    }
}

numbered! {
    /// The forms of types.
    TypeForm {
        Array = forms::TYPE_ARRAY,
        FnPtr = forms::TYPE_FN_PTR,
        Group = forms::TYPE_GROUP,
        ImplTrait = forms::TYPE_IMPL_TRAIT,
        Infer = forms::TYPE_INFER,
        Macro = forms::TYPE_MACRO,
        Never = forms::TYPE_NEVER,
        Paren = forms::TYPE_PAREN,
        Path = forms::TYPE_PATH,
        Ptr = forms::TYPE_PTR,
        Reference = forms::TYPE_REFERENCE,
        Slice = forms::TYPE_SLICE,
        TraitObject = forms::TYPE_TRAIT_OBJECT,
        Tuple = forms::TYPE_TUPLE,
        Verbatim = forms::TYPE_VERBATIM,
    }
}

numbered! {
    /// The operators of a Binary; [`Binding::of`](crate::Binding::of) their numbers says how
    /// they bind.
    Op {
        Add = 0,
        Sub = 1,
        Mul = 2,
        Div = 3,
        Rem = 4,
        And = 5,
        Or = 6,
        BitXor = 7,
        BitAnd = 8,
        BitOr = 9,
        Shl = 10,
        Shr = 11,
        Eq = 12,
        Lt = 13,
        Le = 14,
        Ne = 15,
        Ge = 16,
        Gt = 17,
        AddAssign = 18,
        SubAssign = 19,
        MulAssign = 20,
        DivAssign = 21,
        RemAssign = 22,
        BitXorAssign = 23,
        BitAndAssign = 24,
        BitOrAssign = 25,
        ShlAssign = 26,
        ShrAssign = 27,
    }
}

impl Op {
    /// As it is written: `-` for [`Op::Sub`].
    pub fn spelled(self) -> &'static str {
        SPELLED[usize::from(self.number())]
    }
}

numbered! {
    /// The operators of a Unary.
    UnaryOp {
        Deref = 0,
        Not = 1,
        Neg = 2,
    }
}

numbered! {
    /// Where the root of a tree stands.
    Context {
        /// By itself.
        None = contexts::NONE,
        /// At the beginning of a statement.
        Statement = contexts::STATEMENT,
        /// As the body of a match arm.
        MatchArm = contexts::MATCH_ARM,
        /// As the condition of an `if` or a `while`.
        Condition = contexts::CONDITION,
    }
}

numbered! {
    /// The attributes of an expression.
    Attributes {
        None = 0,
        /// Some, all of them inner ones.
        Inner = 1,
        /// Some, outer ones among them.
        Outer = 2,
    }
}

numbered! {
    /// What stands round a macro's tokens.
    Delimiter {
        Parenthesis = 0,
        Bracket = 1,
        Brace = 2,
    }
}

numbered! {
    /// Whether a label is written: before a block or a loop, or behind a `break`.
    Label {
        None = 0,
        Written = 1,
    }
}

numbered! {
    /// Whether a range holds its end.
    Limits {
        /// `..`
        HalfOpen = 0,
        /// `..=`
        Closed = 1,
    }
}

numbered! {
    /// What a pointer or a reference lets its holder do.
    Mutability {
        Const = 0,
        Mut = 1,
    }
}

numbered! {
    /// How a Verbatim ends.
    Ending {
        Other = 0,
        /// In tokens between braces.
        Braces = 1,
    }
}

/// The last bound of an `impl` or `dyn` type.
#[derive(Clone, Debug)]
pub enum Bound {
    /// A trait without arguments.
    Bare,
    /// A trait with arguments between `<` and `>`, which are trees of their own.
    Angle,
    /// A trait with arguments between parentheses, and its output, where that is written.
    Parenthesised(Option<Type>),
    Lifetime,
    /// `use<..>`
    PreciseCapture,
    Verbatim(Ending),
}
