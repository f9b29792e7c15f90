//! Expressions, statements and operators.

use crate::punctuated::Punctuated;
use crate::{
    token, AngleBracketedGenericArguments, Attribute, BoundLifetimes, Ident, Lifetime, Macro, Pat,
    Path, PointerMutability, QSelf, ReturnType, Type,
};
use proc_macro2::TokenStream;

/// Types of expressions: attributes, a node's number, and the fields given.
macro_rules! expressions {
    ($($name:ident { $($field:ident: $type:ty,)* })*) => {$(
        pub struct $name {
            /// The number of the tree's node, 0 where it has none.
            pub node: u16,
            pub attrs: Vec<Attribute>,
            $(pub $field: $type,)*
        }
    )*};
}

/// The enum of all expressions, and the number of the node of each.
macro_rules! expression_enum {
    ($($variant:ident($type:ident))*) => {
        #[non_exhaustive]
        pub enum Expr {
            $($variant($type),)*
            Block(ExprBlock),
            Verbatim(TokenStream),
        }

        impl Expr {
            /// The number of the tree's node that this was built from; 0 for
            /// insides that the tree doesn't have.
            pub fn node(&self) -> u16 {
                match self {
                    $(Expr::$variant(expr) => expr.node,)*
                    Expr::Block(expr) => expr.block.brace_token.node,
                    Expr::Verbatim(tokens) => tokens.node,
                }
            }
        }
    };
}

expression_enum! {
    Array(ExprArray) Assign(ExprAssign) Async(ExprAsync) Await(ExprAwait) Binary(ExprBinary)
    Break(ExprBreak) Call(ExprCall) Cast(ExprCast) Closure(ExprClosure) Const(ExprConst)
    Continue(ExprContinue) Field(ExprField) ForLoop(ExprForLoop) Group(ExprGroup) If(ExprIf)
    Index(ExprIndex) Infer(ExprInfer) Let(ExprLet) Lit(ExprLit) Loop(ExprLoop) Macro(ExprMacro)
    Match(ExprMatch) MethodCall(ExprMethodCall) Paren(ExprParen) Path(ExprPath) Range(ExprRange)
    RawAddr(ExprRawAddr) Reference(ExprReference) Repeat(ExprRepeat) Return(ExprReturn)
    Struct(ExprStruct) Try(ExprTry) TryBlock(ExprTryBlock) Tuple(ExprTuple) Unary(ExprUnary)
    Unsafe(ExprUnsafe) While(ExprWhile) Yield(ExprYield)
}

expressions! {
    ExprArray { elems: Punctuated<Expr, Token![,]>, }
    ExprAssign { left: Box<Expr>, right: Box<Expr>, }
    ExprAsync { capture: Option<Token![move]>, block: Block, }
    ExprAwait { base: Box<Expr>, }
    ExprBinary { left: Box<Expr>, op: BinOp, right: Box<Expr>, }
    ExprBreak { label: Option<Lifetime>, expr: Option<Box<Expr>>, }
    ExprCall { func: Box<Expr>, args: Punctuated<Expr, Token![,]>, }
    ExprCast { expr: Box<Expr>, ty: Box<Type>, }
    ExprClosure {
        lifetimes: Option<BoundLifetimes>,
        constness: Option<Token![const]>,
        asyncness: Option<Token![async]>,
        capture: Option<Token![move]>,
        inputs: Punctuated<Pat, Token![,]>,
        output: ReturnType,
        body: Box<Expr>,
    }
    ExprConst { block: Block, }
    ExprContinue { label: Option<Lifetime>, }
    ExprField { base: Box<Expr>, member: Member, }
    ExprForLoop { label: Option<Label>, pat: Pat, expr: Box<Expr>, body: Block, }
    ExprGroup { expr: Box<Expr>, }
    ExprIf {
        cond: Box<Expr>,
        then_branch: Block,
        else_branch: Option<(Token![else], Box<Expr>)>,
    }
    ExprIndex { expr: Box<Expr>, index: Box<Expr>, }
    ExprInfer {}
    ExprLet { pat: Pat, expr: Box<Expr>, }
    ExprLit { lit: Lit, }
    ExprLoop { label: Option<Label>, body: Block, }
    ExprMacro { mac: Macro, }
    ExprMatch { expr: Box<Expr>, arms: Vec<Arm>, }
    ExprMethodCall {
        receiver: Box<Expr>,
        method: Ident,
        turbofish: Option<AngleBracketedGenericArguments>,
        args: Punctuated<Expr, Token![,]>,
    }
    ExprParen { expr: Box<Expr>, }
    ExprPath { qself: Option<QSelf>, path: Path, }
    ExprRange { start: Option<Box<Expr>>, limits: RangeLimits, end: Option<Box<Expr>>, }
    ExprRawAddr { mutability: PointerMutability, expr: Box<Expr>, }
    ExprReference { mutability: Option<Token![mut]>, expr: Box<Expr>, }
    ExprRepeat { expr: Box<Expr>, len: Box<Expr>, }
    ExprReturn { expr: Option<Box<Expr>>, }
    ExprStruct {
        qself: Option<QSelf>,
        path: Path,
        fields: Punctuated<FieldValue, Token![,]>,
        rest: Option<Box<Expr>>,
    }
    ExprTry { expr: Box<Expr>, }
    ExprTryBlock { block: Block, }
    ExprTuple { elems: Punctuated<Expr, Token![,]>, }
    ExprUnary { op: UnOp, expr: Box<Expr>, }
    ExprUnsafe { block: Block, }
    ExprWhile { label: Option<Label>, cond: Box<Expr>, body: Block, }
    ExprYield { expr: Option<Box<Expr>>, }
}

/// A block with its label. expr.rs writes one out with all its fields, so the
/// number of the node stands in the braces of `block`.
pub struct ExprBlock {
    pub attrs: Vec<Attribute>,
    pub label: Option<Label>,
    pub block: Block,
}

pub struct Block {
    pub brace_token: token::Brace,
    pub stmts: Vec<Stmt>,
}

pub enum Stmt {
    Expr(Expr, Option<Token![;]>),
}

pub struct Arm {
    pub attrs: Vec<Attribute>,
    pub pat: Pat,
    pub body: Box<Expr>,
}

pub struct FieldValue {
    pub attrs: Vec<Attribute>,
    pub member: Member,
    pub colon_token: Option<Token![:]>,
    pub expr: Expr,
}

pub struct Label {
    pub name: Lifetime,
}

pub enum Member {
    Named(Ident),
    Unnamed(Index),
}

pub struct Index {
    pub index: u32,
}

/// A literal, of which only the kind is known.
#[non_exhaustive]
pub enum Lit {
    Str(token::Any),
    ByteStr(token::Any),
    CStr(token::Any),
    Byte(token::Any),
    Char(token::Any),
    Int(token::Any),
    Float(token::Any),
    Bool(token::Any),
    Verbatim(token::Any),
}

pub enum RangeLimits {
    HalfOpen(Token![..]),
    Closed(Token![..=]),
}

#[non_exhaustive]
pub enum UnOp {
    Deref(Token![*]),
    Not(Token![!]),
    Neg(Token![-]),
}

#[derive(Copy, Clone)]
#[non_exhaustive]
pub enum BinOp {
    Add(Token![+]),
    Sub(Token![-]),
    Mul(Token![*]),
    Div(Token![/]),
    Rem(Token![%]),
    And(Token![&&]),
    Or(Token![||]),
    BitXor(Token![^]),
    BitAnd(Token![&]),
    BitOr(Token![|]),
    Shl(Token![<<]),
    Shr(Token![>>]),
    Eq(Token![==]),
    Lt(Token![<]),
    Le(Token![<=]),
    Ne(Token![!=]),
    Ge(Token![>=]),
    Gt(Token![>]),
    AddAssign(Token![+=]),
    SubAssign(Token![-=]),
    MulAssign(Token![*=]),
    DivAssign(Token![/=]),
    RemAssign(Token![%=]),
    BitXorAssign(Token![^=]),
    BitAndAssign(Token![&=]),
    BitOrAssign(Token![|=]),
    ShlAssign(Token![<<=]),
    ShrAssign(Token![>>=]),
}
