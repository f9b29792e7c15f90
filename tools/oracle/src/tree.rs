//! From an accepted node table to a tree of the stand-in syn's types.
//!
//! A form that has insides of its own in syn, which our trees leave out, gets an
//! empty one: no statements, no arms, no elements, and for a condition, an
//! iterator or a repeated element an empty Verbatim with node number 0.
//!
//! Where document 01 speaks of the last segment, the last bound, the last token
//! or of some outer attribute, another one of a different kind stands before it.

use model::forms::*;
use model::table::{node, Node};
use proc_macro2::{Delimiter, Group, TokenStream, TokenTree};
use syn::token::{Any, Brace, Bracket, Paren};
use syn::*;

/// What a node was built into.
pub enum Built {
    Expr(Expr),
    Type(Type),
    /// A link and the links behind it: the items from last to first.
    Exprs(Vec<Expr>),
    Types(Vec<Type>),
}

/// Builds a node and all under it. `see` is shown each node when it is built,
/// operands before their owners. Nodes with numbers above the given one that
/// don't belong to it are built and shown as well.
pub fn build(cells: &[u16], count: u16, root: u16, mut see: impl FnMut(u16, &mut Built)) -> Built {
    let mut waiting: Vec<Option<Built>> = Vec::new();
    waiting.resize_with(count as usize + 1, || None);
    // An owner's number is below its operands'.
    for number in (root..=count).rev() {
        let node = node(cells, number);
        let operands = node.operands.map(|operand| waiting[operand as usize].take());
        let mut built = build_node(number, &node, operands);
        see(number, &mut built);
        waiting[number as usize] = Some(built);
    }
    waiting[root as usize].take().expect("the node just built")
}

/// Builds an expression and all under it.
pub fn expression(cells: &[u16], count: u16, root: u16) -> Expr {
    match build(cells, count, root, |_, _| {}) {
        Built::Expr(expr) => expr,
        _ => panic!("node {root} is no expression"),
    }
}

/// The two operands of a node, taken one after the other as its form asks.
struct Operands([Option<Built>; 2]);

impl Operands {
    fn optional_expr(&mut self, place: usize) -> Option<Box<Expr>> {
        match self.0[place].take() {
            None => None,
            Some(Built::Expr(expr)) => Some(Box::new(expr)),
            Some(_) => panic!("an operand that is no expression"),
        }
    }

    fn expr(&mut self, place: usize) -> Box<Expr> {
        self.optional_expr(place).expect("a required operand")
    }

    fn optional_type(&mut self, place: usize) -> Option<Box<Type>> {
        match self.0[place].take() {
            None => None,
            Some(Built::Type(ty)) => Some(Box::new(ty)),
            Some(_) => panic!("an operand that is no type"),
        }
    }

    fn ty(&mut self, place: usize) -> Box<Type> {
        self.optional_type(place).expect("a required operand")
    }

    fn output(&mut self) -> ReturnType {
        match self.optional_type(0) {
            None => ReturnType::Default,
            Some(ty) => ReturnType::Type(Any, ty),
        }
    }

    fn exprs(&mut self) -> punctuated::Punctuated<Expr, Token![,]> {
        match self.0[1].take() {
            None => Vec::new().into(),
            Some(Built::Exprs(items)) => items.into_iter().rev().collect::<Vec<_>>().into(),
            Some(_) => panic!("an operand that is no list of expressions"),
        }
    }

    fn types(&mut self) -> punctuated::Punctuated<Type, Token![,]> {
        match self.0[1].take() {
            None => Vec::new().into(),
            Some(Built::Types(items)) => items.into_iter().rev().collect::<Vec<_>>().into(),
            Some(_) => panic!("an operand that is no list of types"),
        }
    }
}

fn build_node(number: u16, node: &Node, operands: [Option<Built>; 2]) -> Built {
    if node.form == LINK {
        return build_link(operands);
    }
    let mut operands = Operands(operands);
    let built = match node.form {
        1..=40 => Built::Expr(build_expr(number, node, &mut operands)),
        41..=55 => Built::Type(build_type(node, &mut operands)),
        form => panic!("no such form: {form}"),
    };
    assert!(operands.0.iter().all(Option::is_none), "an operand that the form doesn't have");
    built
}

fn build_link([item, next]: [Option<Built>; 2]) -> Built {
    match (item.expect("the item of a link"), next) {
        (Built::Expr(expr), None) => Built::Exprs(vec![expr]),
        (Built::Expr(expr), Some(Built::Exprs(mut items))) => {
            items.push(expr);
            Built::Exprs(items)
        }
        (Built::Type(ty), None) => Built::Types(vec![ty]),
        (Built::Type(ty), Some(Built::Types(mut items))) => {
            items.push(ty);
            Built::Types(items)
        }
        _ => panic!("a list of mixed classes"),
    }
}

fn attributes(number: u16) -> Vec<Attribute> {
    let inner = Attribute { style: AttrStyle::Inner(Any) };
    let outer = Attribute { style: AttrStyle::Outer };
    match number {
        0 => vec![],
        1 => vec![inner],
        2 => vec![inner, outer],
        _ => panic!("no such attributes: {number}"),
    }
}

/// Tokens that end in a brace group.
fn ending_in_brace() -> Vec<TokenTree> {
    vec![TokenTree::Ident, TokenTree::Group(Group(Delimiter::Brace))]
}

/// Tokens that hold a brace group but end in another group.
fn ending_in_parenthesis() -> Vec<TokenTree> {
    [Delimiter::Brace, Delimiter::Parenthesis].map(|it| TokenTree::Group(Group(it))).into()
}

/// Tokens that hold a brace group but end in none.
fn ending_in_name() -> Vec<TokenTree> {
    vec![TokenTree::Group(Group(Delimiter::Brace)), TokenTree::Ident]
}

fn mac(detail: u16) -> Macro {
    let delimiter = match detail {
        0 => MacroDelimiter::Paren(Paren),
        1 => MacroDelimiter::Bracket(Bracket),
        2 => MacroDelimiter::Brace(Brace::default()),
        _ => panic!("no such delimiter: {detail}"),
    };
    Macro { delimiter }
}

/// A path by its last segment. The segment before it is of another kind.
fn path(detail: u16, operands: &mut Operands) -> Path {
    let angle = |args| PathArguments::AngleBracketed(AngleBracketedGenericArguments { args });
    let (before, last) = match detail {
        1 => (angle(Vec::new().into()), PathArguments::None),
        2 => (PathArguments::None, angle(operands.types())),
        3 => {
            let output = operands.output();
            let last = PathArguments::Parenthesized(ParenthesizedGenericArguments { output });
            (PathArguments::None, last)
        }
        _ => panic!("no such segment: {detail}"),
    };
    let segments = [before, last].map(|arguments| PathSegment { arguments });
    Path { segments: Vec::from(segments).into() }
}

/// A name as an expression.
fn name() -> Path {
    Path { segments: vec![PathSegment { arguments: PathArguments::None }].into() }
}

/// Bounds by the last one. The bound before it is of another kind.
fn bounds(
    detail: u16,
    operands: &mut Operands,
) -> punctuated::Punctuated<TypeParamBound, Token![+]> {
    let last = match detail {
        1..=3 => TypeParamBound::Trait(TraitBound { path: path(detail, operands) }),
        4 => TypeParamBound::Lifetime(Lifetime),
        5 => TypeParamBound::PreciseCapture(PreciseCapture),
        6 => TypeParamBound::Verbatim(TokenStream::default()),
        7 => TypeParamBound::Verbatim(TokenStream { node: 0, tokens: ending_in_brace() }),
        _ => panic!("no such bound: {detail}"),
    };
    let before = match detail {
        1 | 7 => TypeParamBound::Lifetime(Lifetime),
        _ => TypeParamBound::Trait(TraitBound { path: name() }),
    };
    vec![before, last].into()
}

fn pointer_mutability(detail: u16) -> PointerMutability {
    match detail {
        0 => PointerMutability::Const(Any),
        _ => PointerMutability::Mut(Any),
    }
}

fn build_type(node: &Node, operands: &mut Operands) -> Type {
    let detail = node.detail;
    let mutability = (detail == 1).then_some(Any);
    match node.form {
        TYPE_ARRAY => Type::Array(TypeArray),
        TYPE_FN_PTR => Type::FnPtr(TypeFnPtr { output: operands.output() }),
        TYPE_GROUP => Type::Group(TypeGroup),
        TYPE_IMPL_TRAIT => Type::ImplTrait(TypeImplTrait { bounds: bounds(detail, operands) }),
        TYPE_INFER => Type::Infer(TypeInfer),
        TYPE_MACRO => Type::Macro(TypeMacro { mac: mac(detail) }),
        TYPE_NEVER => Type::Never(TypeNever),
        TYPE_PAREN => Type::Paren(TypeParen),
        TYPE_PATH => Type::Path(TypePath { path: path(detail, operands) }),
        TYPE_PTR => {
            let mutability = pointer_mutability(detail);
            Type::Ptr(TypePtr { mutability, elem: operands.ty(0) })
        }
        TYPE_REFERENCE => Type::Reference(TypeReference { mutability, elem: operands.ty(0) }),
        TYPE_SLICE => Type::Slice(TypeSlice),
        TYPE_TRAIT_OBJECT => {
            Type::TraitObject(TypeTraitObject { bounds: bounds(detail, operands) })
        }
        TYPE_TUPLE => Type::Tuple(TypeTuple),
        TYPE_VERBATIM => {
            let tokens = if detail == 1 { ending_in_brace() } else { ending_in_name() };
            Type::Verbatim(TokenStream { node: 0, tokens })
        }
        form => panic!("no type: {form}"),
    }
}

fn build_expr(number: u16, form: &Node, operands: &mut Operands) -> Expr {
    let node = number;
    let detail = form.detail;
    let attrs = attributes(form.attributes);
    let label = (detail == 1).then_some(Label { name: Lifetime });
    let mutability = (detail == 1).then_some(Any);
    match form.form {
        ARRAY => Expr::Array(ExprArray { node, attrs, elems: Vec::new().into() }),
        ASSIGN => {
            let (left, right) = (operands.expr(0), operands.expr(1));
            Expr::Assign(ExprAssign { node, attrs, left, right })
        }
        ASYNC => Expr::Async(ExprAsync { node, attrs, capture: None, block: block(0) }),
        AWAIT => Expr::Await(ExprAwait { node, attrs, base: operands.expr(0) }),
        BINARY => {
            let (left, op, right) = (operands.expr(0), binary_operator(detail), operands.expr(1));
            Expr::Binary(ExprBinary { node, attrs, left, op, right })
        }
        BLOCK => Expr::Block(ExprBlock { attrs, label, block: block(node) }),
        BREAK => {
            let label = (detail == 1).then_some(Lifetime);
            Expr::Break(ExprBreak { node, attrs, label, expr: operands.optional_expr(0) })
        }
        CALL => {
            let (func, args) = (operands.expr(0), operands.exprs());
            Expr::Call(ExprCall { node, attrs, func, args })
        }
        CAST => {
            let (expr, ty) = (operands.expr(0), operands.ty(1));
            Expr::Cast(ExprCast { node, attrs, expr, ty })
        }
        CLOSURE => Expr::Closure(ExprClosure {
            node,
            attrs,
            lifetimes: None,
            constness: None,
            asyncness: None,
            capture: None,
            inputs: Vec::new().into(),
            output: match detail {
                0 => ReturnType::Default,
                _ => ReturnType::Type(Any, Box::new(Type::Infer(TypeInfer))),
            },
            body: operands.expr(0),
        }),
        CONST => Expr::Const(ExprConst { node, attrs, block: block(0) }),
        CONTINUE => Expr::Continue(ExprContinue { node, attrs, label: None }),
        FIELD => {
            let member = match detail {
                0 => Member::Named(Ident),
                _ => Member::Unnamed(Index { index: 0 }),
            };
            Expr::Field(ExprField { node, attrs, base: operands.expr(0), member })
        }
        FOR_LOOP => {
            let (expr, body) = (inside(), block(0));
            Expr::ForLoop(ExprForLoop { node, attrs, label, pat: Pat, expr, body })
        }
        GROUP => Expr::Group(ExprGroup { node, attrs, expr: operands.expr(0) }),
        IF => {
            let (cond, then_branch) = (inside(), block(0));
            Expr::If(ExprIf { node, attrs, cond, then_branch, else_branch: None })
        }
        INDEX => {
            let (expr, index) = (operands.expr(0), operands.expr(1));
            Expr::Index(ExprIndex { node, attrs, expr, index })
        }
        INFER => Expr::Infer(ExprInfer { node, attrs }),
        LET => Expr::Let(ExprLet { node, attrs, pat: Pat, expr: operands.expr(0) }),
        LIT => Expr::Lit(ExprLit { node, attrs, lit: Lit::Int(Any) }),
        LOOP => Expr::Loop(ExprLoop { node, attrs, label, body: block(0) }),
        MACRO => Expr::Macro(ExprMacro { node, attrs, mac: mac(detail) }),
        MATCH => Expr::Match(ExprMatch { node, attrs, expr: inside(), arms: Vec::new() }),
        METHOD_CALL => {
            let (receiver, args) = (operands.expr(0), operands.exprs());
            let (method, turbofish) = (Ident, None);
            Expr::MethodCall(ExprMethodCall { node, attrs, receiver, method, turbofish, args })
        }
        PAREN => Expr::Paren(ExprParen { node, attrs, expr: operands.expr(0) }),
        PATH => Expr::Path(ExprPath { node, attrs, qself: None, path: name() }),
        RANGE => {
            let (start, end) = (operands.optional_expr(0), operands.optional_expr(1));
            let limits = match detail {
                0 => RangeLimits::HalfOpen(Any),
                _ => RangeLimits::Closed(Any),
            };
            Expr::Range(ExprRange { node, attrs, start, limits, end })
        }
        RAW_ADDR => {
            let mutability = pointer_mutability(detail);
            Expr::RawAddr(ExprRawAddr { node, attrs, mutability, expr: operands.expr(0) })
        }
        REFERENCE => {
            Expr::Reference(ExprReference { node, attrs, mutability, expr: operands.expr(0) })
        }
        REPEAT => Expr::Repeat(ExprRepeat { node, attrs, expr: inside(), len: inside() }),
        RETURN => Expr::Return(ExprReturn { node, attrs, expr: operands.optional_expr(0) }),
        STRUCT => Expr::Struct(ExprStruct {
            node,
            attrs,
            qself: None,
            path: name(),
            fields: Vec::new().into(),
            rest: None,
        }),
        TRY => Expr::Try(ExprTry { node, attrs, expr: operands.expr(0) }),
        TRY_BLOCK => Expr::TryBlock(ExprTryBlock { node, attrs, block: block(0) }),
        TUPLE => Expr::Tuple(ExprTuple { node, attrs, elems: Vec::new().into() }),
        UNARY => {
            let op = match detail {
                0 => UnOp::Deref(Any),
                1 => UnOp::Not(Any),
                _ => UnOp::Neg(Any),
            };
            Expr::Unary(ExprUnary { node, attrs, op, expr: operands.expr(0) })
        }
        UNSAFE => Expr::Unsafe(ExprUnsafe { node, attrs, block: block(0) }),
        VERBATIM => {
            let tokens = if detail == 1 { ending_in_brace() } else { ending_in_parenthesis() };
            Expr::Verbatim(TokenStream { node, tokens })
        }
        WHILE => {
            let (cond, body) = (inside(), block(0));
            Expr::While(ExprWhile { node, attrs, label, cond, body })
        }
        YIELD => Expr::Yield(ExprYield { node, attrs, expr: operands.optional_expr(0) }),
        form => panic!("no expression: {form}"),
    }
}

/// A block without statements.
fn block(node: u16) -> Block {
    Block { brace_token: Brace { node }, stmts: Vec::new() }
}

/// An expression inside a closed form.
pub fn inside() -> Box<Expr> {
    Box::new(Expr::Verbatim(TokenStream::default()))
}

pub fn binary_operator(detail: u16) -> BinOp {
    const OPERATORS: [BinOp; 28] = [
        BinOp::Add(Any),
        BinOp::Sub(Any),
        BinOp::Mul(Any),
        BinOp::Div(Any),
        BinOp::Rem(Any),
        BinOp::And(Any),
        BinOp::Or(Any),
        BinOp::BitXor(Any),
        BinOp::BitAnd(Any),
        BinOp::BitOr(Any),
        BinOp::Shl(Any),
        BinOp::Shr(Any),
        BinOp::Eq(Any),
        BinOp::Lt(Any),
        BinOp::Le(Any),
        BinOp::Ne(Any),
        BinOp::Ge(Any),
        BinOp::Gt(Any),
        BinOp::AddAssign(Any),
        BinOp::SubAssign(Any),
        BinOp::MulAssign(Any),
        BinOp::DivAssign(Any),
        BinOp::RemAssign(Any),
        BinOp::BitXorAssign(Any),
        BinOp::BitAndAssign(Any),
        BinOp::BitOrAssign(Any),
        BinOp::ShlAssign(Any),
        BinOp::ShrAssign(Any),
    ];
    OPERATORS[detail as usize]
}
