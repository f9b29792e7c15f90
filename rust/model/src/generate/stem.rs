//! Pieces that trees are put together from.

use super::draft::{Draft, Label, Slot};
use crate::forms::*;
use crate::sizes::MOST_NODES;
use std::iter::Peekable;

/// What stands in a place of a stem's node.
#[derive(Copy, Clone, PartialEq, Eq, Debug)]
pub enum Fill {
    Nothing,
    /// A further expression.
    Hole,
    /// A list of one further expression.
    Argument,
    /// A node without operands.
    Leaf(Label),
    /// A type over a path type without arguments.
    Over(Label),
}

/// A node with what stands in its places.
#[derive(Copy, Clone, PartialEq, Eq, Debug)]
pub struct Stem {
    pub label: Label,
    pub fills: [Fill; 2],
}

/// A Path, the simplest expression.
pub const NAME: Fill = Fill::Leaf(Label::of(PATH));

/// A path type without arguments.
pub const TYPE: Fill = Fill::Leaf(Label::of(TYPE_PATH));

impl Stem {
    pub const fn new(form: u16, attributes: u16, detail: u16, fills: [Fill; 2]) -> Self {
        Stem { label: Label::new(form, attributes, detail), fills }
    }

    /// A node without operands.
    pub const fn leaf(form: u16, attributes: u16, detail: u16) -> Self {
        Stem::new(form, attributes, detail, [Fill::Nothing; 2])
    }

    /// A node with a further expression in the first place only.
    pub const fn one(form: u16, attributes: u16, detail: u16) -> Self {
        Stem::new(form, attributes, detail, [Fill::Hole, Fill::Nothing])
    }

    /// A node with further expressions in both places.
    pub const fn two(form: u16, attributes: u16, detail: u16) -> Self {
        Stem::new(form, attributes, detail, [Fill::Hole, Fill::Hole])
    }

    /// A node with a further expression to the left of a name.
    pub const fn left(form: u16, attributes: u16, detail: u16) -> Self {
        Stem::new(form, attributes, detail, [Fill::Hole, NAME])
    }

    /// A node with a further expression to the right of a name.
    pub const fn right(form: u16, attributes: u16, detail: u16) -> Self {
        Stem::new(form, attributes, detail, [NAME, Fill::Hole])
    }

    /// A Cast of a further expression to a type.
    pub const fn cast(attributes: u16, ty: Label) -> Self {
        Stem::new(CAST, attributes, 0, [Fill::Hole, Fill::Leaf(ty)])
    }

    /// The same with names for further expressions.
    pub const fn named(self) -> Self {
        let mut fills = self.fills;
        if let Fill::Hole = fills[0] {
            fills[0] = NAME;
        }
        if let Fill::Hole = fills[1] {
            fills[1] = NAME;
        }
        Stem { label: self.label, fills }
    }

    /// How many nodes it brings.
    pub fn nodes(&self) -> usize {
        let filled = |fill: &Fill| match fill {
            Fill::Nothing | Fill::Hole => 0,
            Fill::Argument | Fill::Leaf(_) => 1,
            Fill::Over(_) => 2,
        };
        1 + self.fills.iter().map(filled).sum::<usize>()
    }

    /// How many nodes its longest path holds, without further expressions.
    pub fn depth(&self) -> usize {
        let below = |fill: &Fill| match fill {
            Fill::Nothing | Fill::Hole | Fill::Argument => 0,
            Fill::Leaf(_) => 1,
            Fill::Over(_) => 2,
        };
        1 + self.fills.iter().map(below).max().unwrap_or(0)
    }

    /// How many further expressions it has.
    pub fn holes(&self) -> usize {
        let open = |fill: &Fill| matches!(fill, Fill::Hole | Fill::Argument);
        self.fills.iter().filter(|fill| open(fill)).count()
    }

    /// Puts it into a place, or makes it the root, and gives its further places.
    pub fn plant(&self, draft: &mut Draft, slot: Option<Slot>) -> Vec<Slot> {
        let owner = match slot {
            Some(slot) => draft.put(slot, self.label),
            None => {
                *draft = Draft::new(self.label);
                0
            }
        };
        let mut holes = Vec::new();
        for (place, fill) in self.fills.into_iter().enumerate() {
            let slot = Slot { owner, place };
            match fill {
                Fill::Nothing => {}
                Fill::Hole => holes.push(slot),
                Fill::Argument => {
                    let link = draft.put(slot, Label::of(LINK));
                    holes.push(Slot { owner: link, place: 0 });
                }
                Fill::Leaf(label) => {
                    draft.put(slot, label);
                }
                Fill::Over(label) => {
                    let owner = draft.put(slot, label);
                    draft.put(Slot { owner, place: 0 }, Label::of(TYPE_PATH));
                }
            }
        }
        holes
    }
}

/// A tree of stems, each in the first further place of the one before.
pub fn planted(stems: impl IntoIterator<Item = Stem>) -> Draft {
    let mut draft = Draft::default();
    plant_below(&mut draft, None, stems);
    draft
}

fn plant_below(draft: &mut Draft, mut slot: Option<Slot>, stems: impl IntoIterator<Item = Stem>) {
    for stem in stems {
        slot = stem.plant(draft, slot).first().copied();
    }
}

/// A call with stems planted for each argument, taken as long as there is room.
pub fn call_of(arguments: &mut Peekable<impl Iterator<Item = Vec<Stem>>>) -> Draft {
    let mut draft = Draft::new(Label::of(CALL));
    draft.put(Slot { owner: 0, place: 0 }, Label::of(PATH));
    let mut rest = Slot { owner: 0, place: 1 };
    let nodes = |stems: &Vec<Stem>| 1 + stems.iter().map(Stem::nodes).sum::<usize>();
    while let Some(stems) = arguments.next_if(|next| draft.nodes.len() + nodes(next) <= MOST_NODES)
    {
        let link = draft.put(rest, Label::of(LINK));
        plant_below(&mut draft, Some(Slot { owner: link, place: 0 }), stems);
        rest = Slot { owner: link, place: 1 };
    }
    draft
}
