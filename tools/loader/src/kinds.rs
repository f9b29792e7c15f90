//! Tree files and rearranged files.

use crate::files;
use model::columns::{self, RESTORED};
use model::{table, NodeTable};

#[derive(Copy, Clone, PartialEq, Eq, Debug)]
pub enum Kind {
    Tree,
    Columns,
}

impl Kind {
    /// The refusals of a file, in the order in which they are told.
    pub fn refusals(self) -> &'static [u16] {
        match self {
            Kind::Tree => &[1, 2, 3, 4, 5, 6, 7, 8, 9, 10, 11],
            Kind::Columns => &[1, 2, 3, 4, 5, RESTORED, 6, 7, 8, 9, 10, 11],
        }
    }

    /// The numbers of a table's file, as those of a table.
    pub fn numbers(self, table: &NodeTable) -> NodeTable {
        match self {
            Kind::Tree => table.clone(),
            Kind::Columns => columns::rearranged(table),
        }
    }

    pub fn write(self, table: &NodeTable) -> Vec<u8> {
        table::write(&self.numbers(table))
    }

    /// The table of an accepted file, or the first refusal that applies.
    pub fn read(self, file: &[u8]) -> Result<NodeTable, u16> {
        match self {
            Kind::Tree => files::read(file),
            Kind::Columns => columns::read(file),
        }
    }
}
