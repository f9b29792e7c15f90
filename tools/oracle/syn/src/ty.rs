//! Types, paths and bounds. What lies inside a closed type is left out, since
//! neither prettyplease's four files nor our trees look there.

use crate::punctuated::Punctuated;
use crate::{Lifetime, Macro};
use proc_macro2::TokenStream;

#[non_exhaustive]
pub enum Type {
    Array(TypeArray),
    FnPtr(TypeFnPtr),
    Group(TypeGroup),
    ImplTrait(TypeImplTrait),
    Infer(TypeInfer),
    Macro(TypeMacro),
    Never(TypeNever),
    Paren(TypeParen),
    Path(TypePath),
    Ptr(TypePtr),
    Reference(TypeReference),
    Slice(TypeSlice),
    TraitObject(TypeTraitObject),
    Tuple(TypeTuple),
    Verbatim(TokenStream),
}

pub struct TypeArray;
pub struct TypeGroup;
pub struct TypeInfer;
pub struct TypeNever;
pub struct TypeParen;
pub struct TypeSlice;
pub struct TypeTuple;

pub struct TypeFnPtr {
    pub output: ReturnType,
}

pub struct TypeImplTrait {
    pub bounds: Punctuated<TypeParamBound, Token![+]>,
}

pub struct TypeMacro {
    pub mac: Macro,
}

pub struct TypePath {
    pub path: Path,
}

pub struct TypePtr {
    pub mutability: PointerMutability,
    pub elem: Box<Type>,
}

pub struct TypeReference {
    pub mutability: Option<Token![mut]>,
    pub elem: Box<Type>,
}

pub struct TypeTraitObject {
    pub bounds: Punctuated<TypeParamBound, Token![+]>,
}

pub enum PointerMutability {
    Const(Token![const]),
    Mut(Token![mut]),
}

pub enum ReturnType {
    Default,
    Type(Token![->], Box<Type>),
}

/// A bound of an `impl` or `dyn` type.
#[non_exhaustive]
pub enum TypeParamBound {
    Trait(TraitBound),
    Lifetime(Lifetime),
    PreciseCapture(PreciseCapture),
    Verbatim(TokenStream),
}

pub struct TraitBound {
    pub path: Path,
}

pub struct PreciseCapture;

/// `<T as Trait>` before a path. Our paths have none.
pub struct QSelf;

pub struct Path {
    pub segments: Punctuated<PathSegment, Token![::]>,
}

impl Path {
    /// The name that is the whole path. Asked only where an expression begins a
    /// line, which ours never do.
    pub fn get_ident(&self) -> Option<&crate::Ident> {
        None
    }
}

pub struct PathSegment {
    pub arguments: PathArguments,
}

pub enum PathArguments {
    None,
    AngleBracketed(AngleBracketedGenericArguments),
    Parenthesized(ParenthesizedGenericArguments),
}

pub struct AngleBracketedGenericArguments {
    pub args: Punctuated<Type, Token![,]>,
}

pub struct ParenthesizedGenericArguments {
    pub output: ReturnType,
}
