//! The levels of document 01's grammar and its special rules, with the comma after the
//! last item that document 02's Paper 1 adds and the Struct of its Paper 5; each rule can be
//! changed to see who notices.

use crate::codes::*;
use crate::forms;

/// How tightly an expression holds together, loosest first.
pub type Level = u8;

pub const ASSIGNMENT: Level = 0;
pub const OR_LEVEL: Level = 1;
pub const AND_LEVEL: Level = 2;
pub const COMPARISON: Level = 3;
pub const BIT_OR_LEVEL: Level = 4;
pub const BIT_XOR_LEVEL: Level = 5;
pub const BIT_AND_LEVEL: Level = 6;
pub const SHIFT: Level = 7;
pub const SUM: Level = 8;
pub const PRODUCT: Level = 9;
pub const CAST: Level = 10;
pub const PREFIX: Level = 11;
/// The dot, call, index and `?` forms, names, literals, Structs and groups.
pub const TIGHTEST: Level = 12;

/// What stands between two operands: the node's form and detail, its level, and
/// the loosest level that each operand may have.
#[derive(Copy, Clone, Debug)]
pub struct Infix {
    pub form: u16,
    pub detail: u16,
    pub level: Level,
    pub left: Level,
    pub right: Level,
}

/// A change of one rule.
#[derive(Copy, Clone, PartialEq, Eq, Debug)]
pub enum Change {
    /// The operators of a level, `as` or the prefixes are of the next tighter one.
    Tightened(Level),
    /// A level leans the other way; comparisons, which lean neither way, left.
    LeansOtherwise(Level),
    /// Sums lean both ways, so that there are several readings.
    SumsLeanBothWays,
    /// `<` after a type name may be an operator.
    LessAfterTypeName,
    /// `<<` after a type name may be an operator.
    ShiftAfterTypeName,
    /// `<=` after a type name never is an operator.
    NoLessOrEqualAfterTypeName,
    /// What ends in type arguments counts as a type name.
    NoLessAfterTypeArguments,
    /// Dot, name, `(` may call a field.
    FieldIsCalled,
    /// A numbered member is not called.
    NumberedIsNotCalled,
    /// No comma follows the last item of a list: document 01's rule, 'commas between
    /// items only'.
    CommasBetweenOnly,
    /// No comma follows the last argument.
    NoCommaAfterLastArgument,
    /// No comma follows the last type.
    NoCommaAfterLastType,
    /// Two commas may follow the last item.
    TwoCommasAfterLast,
    /// A comma may stand in a list without items.
    CommaInEmptyList,
    /// A comma may stand before the end of parentheses that group.
    CommaInGroup,
    /// A comma may follow an index.
    CommaAfterIndex,
    /// Argument lists are not empty.
    NoEmptyArguments,
    /// Type lists are not empty.
    NoEmptyTypeArguments,
    /// `&&` before an operand is two references.
    AndIsTwoReferences,
    /// Parentheses leave a node.
    GroupsLeaveNodes,
    /// In a condition a Struct is read as elsewhere.
    StructInCondition,
    /// Outside of conditions a Struct is read as in one.
    StructBarredInNone,
    /// In a condition parentheses that group do not let a Struct be read.
    StructBarredInGroup,
    /// In a condition brackets do not.
    StructBarredInIndex,
    /// In a condition argument lists do not.
    StructBarredInArguments,
    /// In a condition a Struct is barred only where nothing follows it.
    StructBarredAtEndOnly,
    /// A Struct holds together like a prefix and its operand.
    StructLikePrefix,
}

impl Change {
    pub fn all() -> impl Iterator<Item = Change> {
        let single = [
            Change::SumsLeanBothWays,
            Change::LessAfterTypeName,
            Change::ShiftAfterTypeName,
            Change::NoLessOrEqualAfterTypeName,
            Change::NoLessAfterTypeArguments,
            Change::FieldIsCalled,
            Change::NumberedIsNotCalled,
            Change::CommasBetweenOnly,
            Change::NoCommaAfterLastArgument,
            Change::NoCommaAfterLastType,
            Change::TwoCommasAfterLast,
            Change::CommaInEmptyList,
            Change::CommaInGroup,
            Change::CommaAfterIndex,
            Change::NoEmptyArguments,
            Change::NoEmptyTypeArguments,
            Change::AndIsTwoReferences,
            Change::GroupsLeaveNodes,
            Change::StructInCondition,
            Change::StructBarredInNone,
            Change::StructBarredInGroup,
            Change::StructBarredInIndex,
            Change::StructBarredInArguments,
            Change::StructBarredAtEndOnly,
            Change::StructLikePrefix,
        ];
        let tightened = (ASSIGNMENT..=PREFIX).map(Change::Tightened);
        let leaning = (ASSIGNMENT..=PRODUCT).map(Change::LeansOtherwise);
        tightened.chain(leaning).chain(single)
    }

    /// The change with that name, as `{:?}` prints it.
    pub fn named(name: &str) -> Option<Change> {
        Change::all().find(|change| format!("{change:?}") == name)
    }
}

/// The rules, or these with one changed.
#[derive(Copy, Clone, Debug)]
pub struct Rules {
    change: Option<Change>,
    infix: [Option<Infix>; CODES as usize],
}

impl Rules {
    pub fn new(change: Option<Change>) -> Self {
        let mut rules = Rules { change, infix: [None; CODES as usize] };
        for code in 0..=EQUALS {
            rules.infix[usize::from(code)] = rules.infix_of(code);
        }
        rules
    }

    pub fn has(&self, change: Change) -> bool {
        self.change == Some(change)
    }

    /// What a code is between two operands.
    pub fn infix(&self, code: u16) -> Option<Infix> {
        self.infix[usize::from(code)]
    }

    /// Add Sub Mul Div Rem And Or BitXor BitAnd BitOr Shl Shr Eq Lt Le Ne Ge Gt,
    /// then the assigning ones, and `=`.
    fn infix_of(&self, code: u16) -> Option<Infix> {
        let level = match code {
            0 | 1 => SUM,
            2..=4 => PRODUCT,
            5 => AND_LEVEL,
            6 => OR_LEVEL,
            7 => BIT_XOR_LEVEL,
            8 => BIT_AND_LEVEL,
            9 => BIT_OR_LEVEL,
            10 | 11 => SHIFT,
            12..=17 => COMPARISON,
            18..=28 => ASSIGNMENT,
            _ => return None,
        };
        let otherwise = self.has(Change::LeansOtherwise(level));
        let level = self.level(level);
        let (leans_left, leans_right) = ((level, level + 1), (level + 1, level));
        let (left, right) = match code {
            0 | 1 if self.has(Change::SumsLeanBothWays) => (level, level),
            12..=17 if !otherwise => (level + 1, level + 1),
            18..=28 if !otherwise => leans_right,
            0..=11 if otherwise => leans_right,
            _ => leans_left,
        };
        let (form, detail) =
            if code == EQUALS { (forms::ASSIGN, 0) } else { (forms::BINARY, code) };
        Some(Infix { form, detail, level, left, right })
    }

    /// Whether a comma may follow the last item of a list of types, or of arguments.
    pub fn comma_after_last(&self, of_types: bool) -> bool {
        let list = match of_types {
            true => Change::NoCommaAfterLastType,
            false => Change::NoCommaAfterLastArgument,
        };
        !self.has(Change::CommasBetweenOnly) && !self.has(list)
    }

    /// Whether a code straight after a type name is no operator.
    pub fn not_after_type_name(&self, code: u16) -> bool {
        match code {
            LESS => !self.has(Change::LessAfterTypeName),
            SHIFT_LEFT => !self.has(Change::ShiftAfterTypeName),
            LESS_OR_EQUAL => self.has(Change::NoLessOrEqualAfterTypeName),
            _ => false,
        }
    }

    /// A level, or the next one.
    pub fn level(&self, level: Level) -> Level {
        level + u8::from(self.has(Change::Tightened(level)))
    }

    /// The form and the detail of a prefix.
    pub fn prefix(&self, code: u16) -> Option<(u16, u16)> {
        match code {
            STAR => Some((forms::UNARY, 0)),
            NOT => Some((forms::UNARY, 1)),
            MINUS => Some((forms::UNARY, 2)),
            AND => Some((forms::REFERENCE, 0)),
            AND_MUT => Some((forms::REFERENCE, 1)),
            _ => None,
        }
    }

    /// The form and the detail of what stands before a type and makes one.
    pub fn type_prefix(&self, code: u16) -> Option<(u16, u16)> {
        match code {
            STAR_CONST => Some((forms::TYPE_PTR, 0)),
            STAR_MUT => Some((forms::TYPE_PTR, 1)),
            AND => Some((forms::TYPE_REFERENCE, 0)),
            AND_MUT => Some((forms::TYPE_REFERENCE, 1)),
            _ => None,
        }
    }
}
