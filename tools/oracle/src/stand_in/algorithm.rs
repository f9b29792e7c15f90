//! Stand-in for algorithm.rs and for the printers of everything that our trees
//! don't hold. Layout does nothing. Words, attributes and entered expressions
//! are told to the recorder.

use crate::fixup::FixupContext;
use crate::recorder::Recorder;
use crate::stand_in::path::PathKind;
use model::CalleeOrder;
use std::borrow::Cow;
use syn::{
    AngleBracketedGenericArguments, Attribute, BoundLifetimes, Expr, Ident, Lifetime, Lit, Macro,
    Pat, Path, QSelf, Stmt, Type,
};

/// Where a line may be broken.
#[derive(Default)]
#[allow(dead_code)]
pub struct BreakToken {
    pub offset: isize,
    pub pre_break: Option<char>,
    pub post_break: &'static str,
    pub no_break: Option<char>,
}

/// A printer that prints nothing and records what it meets, if it has a recorder.
pub struct Printer {
    pub recorder: Option<Recorder>,
    /// Which test of a callee decides.
    pub order: CalleeOrder,
}

/// What expr.rs tells, some of it through lines that the build puts there.
impl Printer {
    /// An expression is entered, with the owner's grouping test and its context.
    pub fn entered(&mut self, expr: &Expr, needs_paren: bool, fixup: FixupContext) {
        if let Some(recorder) = &mut self.recorder {
            recorder.entered(expr, needs_paren, fixup);
        }
    }

    /// A Verbatim expression is printed.
    pub fn verbatim(&mut self) {
        if let Some(recorder) = &mut self.recorder {
            recorder.other();
        }
    }

    pub fn word<S: Into<Cow<'static, str>>>(&mut self, word: S) {
        let Some(recorder) = &mut self.recorder else {
            return;
        };
        match &*word.into() {
            "(" => recorder.opening(),
            ")" => recorder.closing(),
            _ => recorder.other(),
        }
    }

    pub fn outer_attrs(&mut self, _attrs: &[Attribute]) {
        if let Some(recorder) = &mut self.recorder {
            recorder.attributes();
        }
    }
}

/// What is no part of our trees.
impl Printer {
    pub fn angle_bracketed_generic_arguments(
        &mut self,
        _arguments: &AngleBracketedGenericArguments,
        _kind: PathKind,
    ) {
    }

    pub fn bound_lifetimes(&mut self, _lifetimes: &BoundLifetimes) {}

    pub fn ident(&mut self, _ident: &Ident) {}

    pub fn inner_attrs(&mut self, _attrs: &[Attribute]) {}

    pub fn lifetime(&mut self, _lifetime: &Lifetime) {}

    pub fn lit(&mut self, _lit: &Lit) {}

    pub fn mac(&mut self, _mac: &Macro, _ident: Option<&Ident>, _semicolon: bool) {}

    pub fn pat(&mut self, _pat: &Pat) {}

    pub fn qpath(&mut self, _qself: &Option<QSelf>, _path: &Path, _kind: PathKind) {}

    pub fn stmt(&mut self, _stmt: &Stmt, _is_last: bool) {}

    /// Types hold no expressions in our trees.
    pub fn ty(&mut self, _ty: &Type) {}
}

/// Layout.
impl Printer {
    pub fn cbox(&mut self, _indent: isize) {}

    pub fn ibox(&mut self, _indent: isize) {}

    pub fn end(&mut self) {}

    pub fn end_with_max_width(&mut self, _max: isize) {}

    pub fn ends_with(&self, _ch: char) -> bool {
        false
    }

    pub fn hardbreak(&mut self) {}

    pub fn hardbreak_if_nonempty(&mut self) {}

    pub fn nbsp(&mut self) {}

    pub fn neverbreak(&mut self) {}

    pub fn offset(&mut self, _offset: isize) {}

    pub fn scan_break(&mut self, _token: BreakToken) {}

    pub fn space(&mut self) {}

    pub fn space_if_nonempty(&mut self) {}

    pub fn trailing_comma(&mut self, _is_last: bool) {}

    pub fn trailing_comma_or_space(&mut self, _is_last: bool) {}

    pub fn zerobreak(&mut self) {}
}
