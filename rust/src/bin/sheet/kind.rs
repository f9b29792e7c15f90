//! Tree files and rearranged files. Their bytes do not tell them apart: their names do.

use std::ffi::{OsStr, OsString};
use std::path::Path;
use tezhukor::{Refusal, Tree};

/// How the name of a rearranged file ends, behind a dot.
const ENDING: &str = "columns";

#[derive(Copy, Clone, PartialEq, Eq, Debug)]
pub enum Kind {
    Tree,
    Columns,
}

impl Kind {
    /// By the ending of a name.
    pub fn of(file: &OsStr) -> Kind {
        match Path::new(file).extension() {
            Some(ending) if ending == ENDING => Kind::Columns,
            _ => Kind::Tree,
        }
    }

    /// The tree of a file of this kind.
    pub fn load(self, bytes: &[u8]) -> Result<Tree, Refusal> {
        match self {
            Kind::Tree => Tree::load(bytes),
            Kind::Columns => Tree::from_columns(bytes),
        }
    }

    /// The bytes of the other kind of file, of the same nodes in the same order.
    pub fn rearranged(self, bytes: &[u8]) -> Result<Vec<u8>, Refusal> {
        match self {
            Kind::Tree => tezhukor::to_columns(bytes),
            Kind::Columns => tezhukor::from_columns(bytes),
        }
    }

    /// The name for the other kind of file: with the ending more, or without it; none for a
    /// name that is not of this kind.
    pub fn renamed(self, file: &OsStr) -> Option<OsString> {
        match self {
            _ if Kind::of(file) != self => None,
            Kind::Tree => Some([file, OsStr::new("."), OsStr::new(ENDING)].into_iter().collect()),
            Kind::Columns => Some(Path::new(file).with_extension("").into_os_string()),
        }
    }
}
