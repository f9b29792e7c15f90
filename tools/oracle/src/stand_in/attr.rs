//! Stand-in for attr.rs: questions about a list of attributes.

use syn::{AttrStyle, Attribute};

pub fn has_outer(attrs: &[Attribute]) -> bool {
    attrs.iter().any(|attr| matches!(attr.style, AttrStyle::Outer))
}

pub fn has_inner(attrs: &[Attribute]) -> bool {
    attrs.iter().any(|attr| matches!(attr.style, AttrStyle::Inner(_)))
}
