//! Nests, which double the crate's work with each level and not ours; and the
//! slowest trees that a search finds.

use crate::cases::{decide, Case, Lent};
use crate::clock::Clock;
use crate::sets::{numbered, BARE, NAME, RANGE_TO};
use model::forms::{operator::*, *};
use model::generate::{call_of, planted, Dice, Draft, Stem, NESTS, NEXTS};
use model::sizes::{MOST_LEVELS, ROW_CELLS};
use model::{accept, CalleeOrder, NodeTable};
use oracle::direct::context_of_root;
use oracle::BuiltTree;
use std::hint::black_box;

const GROUP_OF: Stem = Stem::one(GROUP, 0, 0);
const MINUS: Stem = Stem::one(UNARY, 0, 2);
const PLUS: Stem = Stem::right(BINARY, 0, ADD);

const LEVELS: [usize; 6] = [4, 8, 16, 32, 64, 126];

/// What the crate may take for one tree, as far as the levels before tell.
const PATIENCE: f64 = 4e9;

/// A line for each nest: nanoseconds a node by its levels, ours and the crate's.
/// Where a folder is given, the longest of each are written there as tree files.
pub fn time_nests(folder: Option<&str>) {
    let levels = LEVELS.map(|levels| levels.to_string()).join(" | ");
    println!("| ns a node, by levels | side | {levels} |");
    println!("|---|---|{}", "---:|".repeat(LEVELS.len()));
    for (number, nest) in NESTS.iter().enumerate() {
        if let Some(folder) = folder {
            write(folder, &format!("nest{number}"), &accepted(&nest.draft(LEVELS[5])));
        }
        let ours = LEVELS.map(|levels| format!("{:.0}", ours(&accepted(&nest.draft(levels)))));
        println!("| {} | ours | {} |", nest.name, ours.join(" | "));
        // A nest of more levels takes it at least as much longer as one of two levels less took.
        let (mut last, mut growth): (Option<(usize, f64)>, f64) = (None, 1.0);
        let theirs = LEVELS.map(|levels| {
            let tree = accepted(&nest.draft(levels));
            if let Some((before, time)) = last {
                if time * growth.powi((levels - before) as i32) > PATIENCE {
                    return "-".to_string();
                }
            }
            let a_node = theirs(&tree);
            let time = a_node * f64::from(tree.count);
            if let Some((before, earlier)) = last {
                growth = (time / earlier).powf(1.0 / (levels - before) as f64).max(1.0);
            }
            last = Some((levels, time));
            let mut lent = Lent::new();
            Case::new(0, tree, &mut lent).check(&mut lent);
            format!("{a_node:.0}")
        });
        println!("| | the crate | {} |", theirs.join(" | "));
    }
}

fn accepted(draft: &Draft) -> NodeTable {
    let tree = numbered(draft);
    assert_eq!(accept::refusal(&tree), 0, "{tree:?}");
    tree
}

/// The least of a few times, by the node.
fn a_node(tree: &NodeTable, mut ask: impl FnMut()) -> f64 {
    let least = (0..5).map(|_| {
        let clock = Clock::start();
        ask();
        clock.nanoseconds()
    });
    least.min().expect("some times") as f64 / f64::from(tree.count)
}

fn ours(tree: &NodeTable) -> f64 {
    let mut rows = vec![0; ROW_CELLS * usize::from(tree.count)];
    a_node(tree, || {
        black_box(decide(black_box(tree), &mut rows));
    })
}

/// The crate's, with rows recorded.
fn theirs(tree: &NodeTable) -> f64 {
    let built = BuiltTree::new(tree.count, &tree.cells);
    let context = context_of_root(tree.context);
    a_node(tree, || {
        black_box(black_box(&built).printed(CalleeOrder::Crate, context));
    })
}

/// How many changes are tried of a slow nest.
const CHANGES: usize = 150;

/// What the levels of a searched nest are.
const LEVEL: [Stem; 16] = [
    Stem::right(ASSIGN, 0, 0),
    Stem::right(BINARY, 0, ADD_ASSIGN),
    Stem::right(BINARY, 0, OR),
    Stem::right(BINARY, 0, AND),
    Stem::right(BINARY, 0, EQ),
    PLUS,
    MINUS,
    Stem::one(REFERENCE, 0, 0),
    Stem::right(RANGE, 0, 0),
    RANGE_TO,
    Stem::one(BREAK, 0, 0),
    Stem::one(RETURN, 0, 0),
    Stem::one(LET, 0, 0),
    GROUP_OF,
    Stem::one(CLOSURE, 0, 0),
    Stem::left(BINARY, 0, ADD),
];

/// Nests of as many levels as are accepted: every two levels by turns, below
/// everything that may follow, with a few ends. The slowest by the node in context 0,
/// which arguments have, are then repeated as arguments of a call until there is no
/// more room, and changed level by level. Where a folder is given, they are written
/// there as tree files: `contextN` is the slowest nest in a context, `nestN` one that
/// was changed, `slowN` the call of these.
pub fn search_slowest(folder: Option<&str>) {
    let mut found: Vec<(f64, Vec<Stem>)> = Vec::new();
    let mut slowest: [(f64, Vec<Stem>); 4] = Default::default();
    for above in NEXTS.into_iter().flatten().chain([MINUS, GROUP_OF, Stem::one(PAREN, 0, 0)]) {
        for first in LEVEL {
            for second in LEVEL {
                for end in [NAME, BARE, Stem::leaf(RETURN, 0, 0)] {
                    let turns = [first, second].into_iter().cycle().take(MOST_LEVELS - 3);
                    let stems: Vec<Stem> = [above].into_iter().chain(turns).chain([end]).collect();
                    let tree = numbered(&planted(stems.iter().copied()));
                    if accept::refusal(&tree) != 0 {
                        continue;
                    }
                    for context in 0..4 {
                        let tree = NodeTable { context, ..tree.clone() };
                        let time = ours(&tree);
                        if time > slowest[usize::from(context)].0 {
                            slowest[usize::from(context)] = (time, stems.clone());
                        }
                        if context == 0 {
                            found.push((time, stems.clone()));
                        }
                    }
                }
            }
        }
    }
    println!("{} nests; the slowest in each context:", found.len());
    for (context, (time, stems)) in (0..).zip(slowest) {
        println!("context {context}, {}: {time:.0} ns a node", labels(&stems));
        if let Some(folder) = folder {
            let tree = NodeTable { context, ..accepted(&planted(stems)) };
            write(folder, &format!("context{context}"), &tree);
        }
    }
    found.sort_by(|a, b| b.0.total_cmp(&a.0));
    println!("the slowest in context 0, and as many of them as 4,096 nodes hold:");
    for (number, (a_nest, stems)) in found.into_iter().take(60).step_by(10).enumerate() {
        let (steps, stems) = climbed(number as u64, stems);
        let full = accepted(&arguments(&stems));
        let time = ours(&full) * f64::from(full.count);
        println!(
            "{}: {a_nest:.0} ns a node; after {steps} changes, {} nodes: {:.2} ms",
            labels(&stems),
            full.count,
            time / 1e6
        );
        if let Some(folder) = folder {
            write(folder, &format!("nest{number}"), &accepted(&planted(stems)));
            write(folder, &format!("slow{number}"), &full);
        }
    }
}

/// The uppermost forms and details of a nest.
fn labels(stems: &[Stem]) -> String {
    let labels = stems[..6].iter().map(|stem| format!("{}/{}", stem.label.form, stem.label.detail));
    labels.collect::<Vec<String>>().join(" over ")
}

/// A nest with levels changed one by one, wherever that made the call slower, and
/// how often it did.
fn climbed(seed: u64, mut stems: Vec<Stem>) -> (usize, Vec<Stem>) {
    let mut dice = Dice::new(seed, 0);
    let time = |stems: &[Stem]| {
        let tree = numbered(&arguments(stems));
        (accept::refusal(&tree) == 0).then(|| ours(&tree) * f64::from(tree.count))
    };
    let (mut slowest, mut steps) = (time(&stems).expect("an accepted tree"), 0);
    for _ in 0..CHANGES {
        let at = 1 + dice.below(stems.len() - 2);
        let before = std::mem::replace(&mut stems[at], dice.pick(&LEVEL));
        match time(&stems) {
            Some(slower) if slower > slowest => (slowest, steps) = (slower, steps + 1),
            _ => stems[at] = before,
        }
    }
    (steps, stems)
}

fn write(folder: &str, name: &str, tree: &NodeTable) {
    let file = std::path::Path::new(folder).join(name);
    std::fs::write(file, model::table::write(tree)).expect("a folder to write to");
}

/// A call with one nest for each argument, as often as there is room.
fn arguments(stems: &[Stem]) -> Draft {
    call_of(&mut std::iter::repeat(stems.to_vec()).peekable())
}
