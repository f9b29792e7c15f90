//! The tables that are printed.

use crate::cases::{Case, Cases};
use crate::measure::{self, counts, median, quartiles, rounds, Figures};
use crate::sets::{Kind, Set};
use crate::sides::Side;

/// How sides are measured.
#[derive(Copy, Clone, PartialEq, Eq, Debug)]
pub enum How {
    /// Nanoseconds, trees of up to so many nodes together over and over.
    Times(u64),
    /// Instructions, by valgrind.
    Instructions,
}

/// Trees of up to so many nodes together are warm.
pub const WARM: How = How::Times(4_096);

/// All trees of a set take turns.
pub const TURNS: How = How::Times(u64::MAX);

impl How {
    pub fn unit(self) -> &'static str {
        match self {
            How::Times(_) => "ns",
            How::Instructions => "instructions",
        }
    }

    /// The trees as they are measured so.
    pub fn cases(self, set: &Set) -> Cases {
        match self {
            How::Times(group_nodes) => Cases::new(set, group_nodes),
            How::Instructions => Cases::new(set, u64::MAX),
        }
    }
}

/// What figures are divided by.
#[derive(Copy, Clone, PartialEq, Eq, Debug)]
pub enum A {
    Call,
    Node,
    Token,
}

impl A {
    pub fn name(self) -> &'static str {
        match self {
            A::Call => "a call",
            A::Node => "a node",
            A::Token => "a token",
        }
    }

    pub fn of(self, cases: &Cases) -> f64 {
        let one: fn(&Case) -> u64 = match self {
            A::Call => |_| 1,
            A::Node => Case::nodes,
            A::Token => Case::tokens,
        };
        cases.sum(one) as f64
    }

    /// A figure, with as much behind the point as is worth it.
    pub fn shown(self, figure: f64) -> String {
        match self {
            _ if figure.is_nan() => "-".to_string(),
            A::Call => format!("{figure:.0}"),
            A::Node | A::Token => format!("{figure:.1}"),
        }
    }
}

/// A side's figure over another's; less what a part of it takes.
pub struct Ratio {
    name: &'static str,
    over: Side,
    part: Option<Side>,
    under: Side,
}

impl Ratio {
    const fn new(name: &'static str, over: Side, under: Side) -> Self {
        Ratio { name, over, part: None, under }
    }

    const fn without(self, part: Side) -> Self {
        Ratio { part: Some(part), ..self }
    }

    fn of(&self, figures: &Figures) -> f64 {
        let part = self.part.map_or(0.0, |part| figures[part as usize]);
        (figures[self.over as usize] - part) / figures[self.under as usize]
    }
}

/// Sides of sets of a kind.
pub struct View {
    pub kind: Kind,
    pub a: A,
    pub sides: &'static [Side],
    pub ratios: &'static [Ratio],
    /// Sides are lines and sets are columns, or the other way round.
    pub sides_are_lines: bool,
}

pub const DECIDE: View = View {
    kind: Kind::Shapes,
    a: A::Node,
    sides: &[Side::Decide, Side::Checks, Side::CrateRows, Side::CratePrinting],
    ratios: &[
        Ratio::new("decide / rows", Side::Decide, Side::CrateRows),
        Ratio::new("decide / printing", Side::Decide, Side::CratePrinting),
        Ratio::new("decide without checks / rows", Side::Decide, Side::CrateRows)
            .without(Side::Checks),
    ],
    sides_are_lines: false,
};

pub const FILES: View = View {
    sides: &[
        Side::Load,
        Side::Save,
        Side::Compare,
        Side::ToColumns,
        Side::FromColumns,
        Side::LoadColumns,
        Side::Write,
        Side::Read,
    ],
    ratios: &[
        Ratio::new("save / load", Side::Save, Side::Load),
        Ratio::new("compare / load", Side::Compare, Side::Load),
        Ratio::new("load_columns / load", Side::LoadColumns, Side::Load),
    ],
    ..DECIDE
};

pub const EDITS: View = View {
    kind: Kind::Edits,
    a: A::Call,
    sides: &[Side::DecideResult, Side::Edit, Side::Preview],
    ratios: &[
        Ratio::new("edit / decide", Side::Edit, Side::DecideResult),
        Ratio::new("preview / decide", Side::Preview, Side::DecideResult),
    ],
    ..DECIDE
};

pub const OPEN: View = View {
    kind: Kind::Open,
    a: A::Call,
    sides: &[Side::Decide, Side::Closed, Side::Open],
    ratios: &[
        Ratio::new("no entry / decide", Side::Closed, Side::Decide),
        Ratio::new("three entries / decide", Side::Open, Side::Decide),
    ],
    ..DECIDE
};

/// Every export on sets of surveyors' size, on all other sets, and of tokens, of a short list and a long one.
pub const ALL: [View; 4] = [
    View { kind: Kind::Surveyors, a: A::Call, sides: Side::SHOWN, sides_are_lines: true, ..DECIDE },
    View { sides: Side::SHOWN, sides_are_lines: true, ..DECIDE },
    View {
        kind: Kind::Differences,
        a: A::Call,
        sides: &[Side::Write, Side::Read],
        ratios: &[],
        ..DECIDE
    },
    View {
        kind: Kind::Differences,
        a: A::Token,
        sides: &[Side::Write, Side::Read],
        ratios: &[],
        ..DECIDE
    },
];

impl View {
    pub fn print(&self, how: How) {
        let mut table = Table {
            corner: format!("{} {}", how.unit(), self.a.name()),
            columns: ["trees", "nodes", "expressions", "tokens"].map(String::from).to_vec(),
            lines: Vec::new(),
        };
        table.columns.extend(self.sides.iter().map(|side| side.name().to_string()));
        table.columns.extend(self.ratios.iter().map(|ratio| ratio.name.to_string()));
        for (number, set) in Set::of(self.kind) {
            table.lines.push((set.name.to_string(), self.line(number, set, how)));
        }
        if self.sides_are_lines {
            table = table.turned();
        }
        table.print();
    }

    fn line(&self, number: usize, set: &Set, how: How) -> Vec<String> {
        let mut cases = how.cases(set);
        cases.check();
        let sides = cases.sides();
        let figures: Vec<Figures> = match how {
            How::Instructions => vec![counts(&measure::this(), number, &sides)],
            How::Times(_) => {
                let asked = |side: &&Side| self.sides.contains(side) || **side == Side::Nothing;
                let sides: Vec<Side> = sides.iter().filter(asked).copied().collect();
                rounds([&mut cases], &sides).into_iter().map(|[figures]| figures).collect()
            }
        };
        if let How::Times(_) = how {
            self.tell_quartiles(set, &figures);
        }
        let of = |case: fn(&Case) -> u64| cases.sum(case).to_string();
        let tokens = if cases.is_plain() { of(Case::tokens) } else { "-".to_string() };
        let mut line = vec![of(|_| 1), of(Case::nodes), of(Case::expressions), tokens];
        let all = self.a.of(&cases);
        line.extend(self.sides.iter().map(|&side| {
            let figure = median(figures.iter().map(|figures| figures[side as usize] / all));
            // No node is asked how an operator binds.
            let is_alike = side == Side::Binding && self.a != A::Call;
            self.a.shown(if is_alike { f64::NAN } else { figure })
        }));
        line.extend(self.ratios.iter().map(|ratio| {
            let ratio = median(figures.iter().map(|figures| ratio.of(figures)));
            format!("{ratio:.2}")
        }));
        line
    }

    fn tell_quartiles(&self, set: &Set, rounds: &[Figures]) {
        let apart = self.sides.iter().map(|&side| {
            let [low, median, high] = quartiles(rounds.iter().map(|round| round[side as usize]));
            format!("{:.0}%", 100.0 * (high - low) / median)
        });
        let apart: Vec<String> = apart.collect();
        eprintln!("{}: quartiles {} apart", set.name, apart.join(", "));
    }
}

/// A table in markdown.
pub struct Table {
    pub corner: String,
    pub columns: Vec<String>,
    pub lines: Vec<(String, Vec<String>)>,
}

impl Table {
    /// Lines for columns.
    pub fn turned(self) -> Table {
        let (columns, lines): (Vec<String>, Vec<Vec<String>>) = self.lines.into_iter().unzip();
        let line = |(at, name): (usize, String)| {
            (name, lines.iter().map(|line| line[at].clone()).collect())
        };
        let lines = self.columns.into_iter().enumerate().map(line).collect();
        Table { corner: self.corner, columns, lines }
    }

    /// With a line below it.
    pub fn print(&self) {
        println!("| {} | {} |", self.corner, self.columns.join(" | "));
        println!("|---|{}", "---:|".repeat(self.columns.len()));
        for (name, cells) in &self.lines {
            println!("| {name} | {} |", cells.join(" | "));
        }
        println!();
    }
}
