//! Types.

use super::{Bound, Delimiter, Ending, Mutability, Part, TypeForm};
use crate::Node;

/// A type.
#[derive(Clone, Debug)]
pub struct Type(pub(super) Part);

impl Type {
    fn closed(form: TypeForm, detail: u16) -> Type {
        Type(Part::leaf(form.number(), detail, 0))
    }

    /// A type with the type that stands in its first place, if one does.
    fn over(form: TypeForm, detail: u16, symbol: u16, first: Option<Type>) -> Type {
        let label = Node { form: form.number(), detail, symbol, ..Node::default() };
        Type(Part::new(label, [first.map(|first| first.0), None]))
    }

    fn bounded(form: TypeForm, last: Bound) -> Type {
        let (detail, output) = match last {
            Bound::Bare => (1, None),
            Bound::Angle => (2, None),
            Bound::Parenthesised(output) => (3, output),
            Bound::Lifetime => (4, None),
            Bound::PreciseCapture => (5, None),
            Bound::Verbatim(ending) => (6 + ending.number(), None),
        };
        Type::over(form, detail, 0, output)
    }
}

/// `[..; ..]`
pub fn array() -> Type {
    Type::closed(TypeForm::Array, 0)
}

/// `fn(..) -> output`, or without an output.
pub fn fn_ptr(output: Option<Type>) -> Type {
    Type::over(TypeForm::FnPtr, 0, 0, output)
}

/// A type between invisible delimiters.
pub fn group() -> Type {
    Type::closed(TypeForm::Group, 0)
}

/// `impl ..`, by its last bound.
pub fn impl_trait(last: Bound) -> Type {
    Type::bounded(TypeForm::ImplTrait, last)
}

/// `_`
pub fn infer() -> Type {
    Type::closed(TypeForm::Infer, 0)
}

/// `m!(..)`
pub fn macro_call(delimiter: Delimiter) -> Type {
    Type::closed(TypeForm::Macro, delimiter.number())
}

/// `!`
pub fn never() -> Type {
    Type::closed(TypeForm::Never, 0)
}

/// `(..)`
pub fn paren() -> Type {
    Type::closed(TypeForm::Paren, 0)
}

/// A path whose last segment has no arguments.
pub fn path(symbol: u16) -> Type {
    Type::over(TypeForm::Path, 1, symbol, None)
}

/// A path whose last segment has arguments between `<` and `>`.
///
/// ```
/// use tezhukor::build::{path, ty, Context};
/// use tezhukor::text::{Names, Text};
/// let map = ty::angle(2, [ty::infer(), ty::path(3)]);
/// let tree = path(1).cast(map).tree(Context::None)?;
/// let text = Text::new(&tree, &tree.rows(), &Names::new("x\nMap\nu8"));
/// assert_eq!(text.as_str(), "x as Map<_, u8>");
/// # Ok::<(), tezhukor::build::Unbuilt>(())
/// ```
pub fn angle(symbol: u16, arguments: impl IntoIterator<Item = Type>) -> Type {
    let label = Node { form: TypeForm::Path.number(), detail: 2, symbol, ..Node::default() };
    Type(Part::new(label, [None, Part::list(arguments.into_iter().map(|ty| ty.0))]))
}

/// A path whose last segment has arguments between parentheses, as `Fn(..) -> output`.
pub fn parenthesised(symbol: u16, output: Option<Type>) -> Type {
    Type::over(TypeForm::Path, 3, symbol, output)
}

/// `*const ty` or `*mut ty`
pub fn ptr(mutability: Mutability, ty: Type) -> Type {
    Type::over(TypeForm::Ptr, mutability.number(), 0, Some(ty))
}

/// `&ty` or `&mut ty`
pub fn reference(mutability: Mutability, ty: Type) -> Type {
    Type::over(TypeForm::Reference, mutability.number(), 0, Some(ty))
}

/// `[..]`
pub fn slice() -> Type {
    Type::closed(TypeForm::Slice, 0)
}

/// `dyn ..`, by its last bound.
pub fn trait_object(last: Bound) -> Type {
    Type::bounded(TypeForm::TraitObject, last)
}

/// `(.., ..)`
pub fn tuple() -> Type {
    Type::closed(TypeForm::Tuple, 0)
}

/// Tokens that are not looked at.
pub fn verbatim(ending: Ending) -> Type {
    Type::closed(TypeForm::Verbatim, ending.number())
}
