//! Refusals.

use model::sizes::LAST_REFUSAL;
use std::fmt;

/// Defines the refusals: number, name and sentence.
macro_rules! refusals {
    ($($number:literal $name:ident $sentence:literal,)*) => {
        /// Why something was refused. Of several reasons the first by number is told, but
        /// that a token list is refused for its context, [`Refusal::NotPlain`], before its
        /// buffer, that an edit tells all reasons of the sheet before those of the second
        /// tree, and [`Refusal::Buffer`] last, and that of a rearranged file
        /// [`Refusal::Restored`] is told straight after [`Refusal::Body`].
        #[derive(Copy, Clone, PartialEq, Eq, PartialOrd, Ord, Hash, Debug)]
        #[repr(u16)]
        pub enum Refusal {
            $(#[doc = $sentence] $name = $number,)*
        }

        impl Refusal {
            /// All refusals, by number.
            pub const ALL: [Refusal; LAST_REFUSAL as usize] = [$(Refusal::$name,)*];

            /// What is wrong, in one sentence.
            pub fn sentence(self) -> &'static str {
                match self {
                    $(Refusal::$name => $sentence,)*
                }
            }
        }
    };
}

refusals! {
    1 FileTooLong "The tree file is longer than 65,536 bytes.",
    2 Header "A header number is malformed: cut off, above 65,535, or with a last group of zero.",
    3 Context "The context is above 3.",
    4 Count "The node count is 0 or above 4,096, or the table is shorter than that many nodes.",
    5 Body "A number of a node is malformed, or bytes follow the last one.",
    6 Label "A node's form, attributes or detail is a number that is not allowed there, or it has a symbol where none is allowed.",
    7 Operand "An operand is absent where required, present where forbidden, or of the wrong class, or node 1 is no expression.",
    8 Numbering "An operand's number is not above its owner's or is above the count, or a node is not owned exactly once.",
    9 SegmentOrBound "A path type has no segment, or a list of bounds is empty.",
    10 ClosureBody "A closure with a written output has a body other than a block without attributes and label.",
    11 Depth "A path from the root holds more than 128 nodes, list links not counted.",
    12 Buffer "A lent buffer is too short.",
    13 NotPlain "The tree has a form that is not plain, or the context is neither 0 nor 3.",
    14 Tokens "The token list has more than 24,576 tokens, an odd number of cells, a code above 46, or a symbol on a token that has none.",
    15 NoReading "The plain grammar gives these tokens no reading.",
    16 ReadingTooLarge "The reading needs more than 4,096 nodes, or a path of more than 128.",
    17 NamedNode "The named node is absent or is no expression.",
    18 EditedTree "The edited tree would have more than 4,096 nodes, a path of more than 128, or a closure with a written output over another body than a block without attributes and label.",
    19 Restored "A form or operand restored from the columns falls outside 0 to 65,535.",
    20 Entries "More than three operators are left open.",
    21 OpenNode "A node whose operator is left open is absent or is no Binary, or is named twice.",
    22 OpenRange "Of an operator that is left open the lowest is above the highest, or the highest above 27.",
}

impl Refusal {
    /// The reply number, 1 to 22.
    pub fn number(self) -> u16 {
        self as u16
    }

    /// The refusal with a reply number; none for 0 and above 22.
    pub fn numbered(number: u16) -> Option<Refusal> {
        Refusal::ALL.into_iter().find(|refusal| refusal.number() == number)
    }
}

impl fmt::Display for Refusal {
    fn fmt(&self, f: &mut fmt::Formatter) -> fmt::Result {
        f.write_str(self.sentence())
    }
}

impl std::error::Error for Refusal {}
