//! What holds of generated trees and of their answers.

use model::forms::{self, *};
use model::generate::{levels, Dice, Family, Order, SmallTrees, LONGEST_NEST};
use model::table::{node, Node};
use model::{accept, table, NodeTable};
use oracle::direct::{context_of_root, precedence_of_operator, rightmost_context, Subject};
use oracle::{answers, Answers, NodeAnswers};

fn answers_of(tree: &NodeTable) -> Answers {
    answers(tree.context, tree.count, &tree.cells)
}

#[test]
fn trees_are_accepted() {
    let (mut most_nodes, mut contexts, mut met) = (0, [false; 4], [false; 57]);
    for family in Family::ALL {
        for index in 0..3_000 {
            let tree = family.tree(1, index);
            assert_eq!(accept::refusal(&tree), 0, "{} {index}", family.name());
            assert_eq!(table::read(&table::write(&tree)).as_ref(), Ok(&tree));
            most_nodes = most_nodes.max(tree.count);
            contexts[tree.context as usize] = true;
            (1..=tree.count).for_each(|at| met[node(&tree.cells, at).form as usize] = true);
        }
    }
    assert_eq!(most_nodes, 4_096);
    assert_eq!(contexts, [true; 4]);
    assert!(met[1..].iter().all(|&form| form));
}

#[test]
fn paths_reach_128() {
    let depth = |tree: &NodeTable| {
        let mut depths = vec![0; tree.count as usize + 1];
        for at in 1..=tree.count {
            let Node { form, operands, .. } = node(&tree.cells, at);
            depths[at as usize] += u32::from(form != LINK);
            let own = depths[at as usize];
            operands.iter().filter(|&&o| o != 0).for_each(|&o| depths[o as usize] = own);
        }
        depths.into_iter().max()
    };
    for family in [Family::Random, Family::Scans, Family::Plain] {
        let deepest = (0..5_000).filter_map(|index| depth(&family.tree(1, index))).max();
        assert_eq!(deepest, Some(128), "{}", family.name());
    }
}

/// The precedence below which an owner's grouping test puts a pair round its
/// operand: 0 for never, 16 for always.
fn below(cells: &[u16], answers: &Answers, owner: Node, place: usize) -> u16 {
    let operand = owner.operands[place];
    let level = precedence_of_operator(if owner.form == BINARY { owner.detail } else { 0 });
    match (owner.form, place) {
        (ASSIGN, 0) | (RANGE, _) => 3,
        (BINARY, 0) => match level {
            1 => 3,
            6 => 7,
            _ => level,
        },
        (BINARY, _) => match level {
            1 => 0,
            _ => level + 1,
        },
        (BREAK, _) => match answers.nodes[operand as usize - 1] {
            NodeAnswers::Expression(value) if value.expr_leading_label && owner.detail == 0 => 16,
            _ => 0,
        },
        (CALL, 0) => match node(cells, operand) {
            Node { form: FIELD, detail: 0, .. } => 16,
            Node { form: FIELD, .. } => 0,
            _ => 15,
        },
        (CAST, 0) => 13,
        (AWAIT | FIELD | INDEX | METHOD_CALL | TRY, 0) => 15,
        (LET, _) => 5,
        (RAW_ADDR | REFERENCE | UNARY, _) => 14,
        _ => 0,
    }
}

/// The pair that expr.rs prints is the one that the row's own precedence, the
/// owner's test and `parenthesize` in the row's own context ask for.
#[test]
fn pairs_follow_from_rows() {
    for index in 0..12_000 {
        let tree = Family::Mixed.tree(2, index);
        if tree.count > 300 {
            continue;
        }
        let answers = answers_of(&tree);
        let mut tests = vec![0; tree.count as usize + 1];
        for at in 1..=tree.count {
            let owner = node(&tree.cells, at);
            for place in 0..2 {
                if owner.operands[place] != 0 {
                    let operand = owner.operands[place] as usize;
                    tests[operand] = below(&tree.cells, &answers, owner, place);
                }
            }
        }
        for at in 1..=tree.count {
            if table::class(&tree.cells, at) != Class::Expression {
                assert_eq!(answers.row(at).cells(), [0; 5]);
                continue;
            }
            let row = answers.row(at);
            let subject = Subject::new(&tree.cells, tree.count, at);
            let outer = row.precedence < tests[at as usize]
                || subject.parenthesize([row.previous, row.next, row.flags]);
            let Node { form, attributes, .. } = node(&tree.cells, at);
            let inner = matches!(form, ASSIGN | BINARY | CAST | RANGE) && attributes != 0;
            assert_eq!(row.pair, u16::from(outer) + 2 * u16::from(inner), "{index} node {at}");
        }
    }
}

/// Contexts of right operands are made from the owner's, or from NONE where the
/// owner has an outer pair.
#[test]
fn contexts_of_right_operands() {
    for index in 0..6_000 {
        let tree = Family::Mixed.tree(3, index);
        let answers = answers_of(&tree);
        assert_eq!(answers.row(1).cells()[2..], context_of_root(tree.context));
        for at in 1..=tree.count {
            let owner = node(&tree.cells, at);
            let row = answers.row(at);
            let own = match row.pair & 1 {
                0 => [row.previous, row.next, row.flags],
                _ => [0; 3],
            };
            for place in 0..2 {
                let operand = owner.operands[place];
                if operand == 0 || forms::side(owner.form, place) != Side::Right {
                    continue;
                }
                let (reset, optional, precedence) = match owner.form {
                    ASSIGN => (false, false, 1),
                    BINARY => (false, false, precedence_of_operator(owner.detail)),
                    RANGE => (false, true, 2),
                    BREAK => (true, true, 0),
                    RETURN | YIELD => (true, false, 0),
                    CLOSURE => (false, false, 0),
                    LET => (false, false, 5),
                    _ => (false, false, 14),
                };
                let handed = rightmost_context(own, reset, optional, precedence);
                assert_eq!(answers.row(operand).cells()[2..], handed);
            }
        }
    }
}

#[test]
fn numbering_is_free() {
    let trees = SmallTrees::representative(4);
    for index in (0..trees.len()).step_by(97) {
        let sorted = |order| {
            let tree = trees.draft(index).number(0, order, &mut Dice::new(4, index));
            assert_eq!(accept::refusal(&tree), 0);
            let mut rows: Vec<[u16; 5]> =
                (1..=tree.count).map(|at| answers_of(&tree).row(at).cells()).collect();
            rows.sort_unstable();
            rows
        };
        let printing = sorted(Order::Printing);
        for order in [Order::Mirrored, Order::Breadth, Order::Random] {
            assert_eq!(sorted(order), printing);
        }
    }
}

/// The numbers that the documentation of `SmallTrees` gives.
#[test]
fn small_trees_are_counted() {
    let counts =
        |trees: fn(usize) -> SmallTrees, nodes: [usize; 3]| nodes.map(|nodes| trees(nodes).len());
    assert_eq!(counts(SmallTrees::every_label, [1, 2, 3]), [95, 7_223, 1_416_773]);
    assert_eq!(counts(SmallTrees::representative, [3, 4, 5]), [9_142, 324_842, 12_896_954]);
    assert_eq!(counts(SmallTrees::narrow, [4, 5, 6]), [5_208, 71_980, 1_046_412]);
}

#[test]
fn small_trees_are_accepted_and_differ() {
    for trees in [SmallTrees::every_label(2), SmallTrees::representative(3), SmallTrees::narrow(4)]
    {
        let mut met = std::collections::HashSet::new();
        for index in 0..trees.len() {
            let tree = trees.tree((index % 4) as u16, index);
            assert_eq!(accept::refusal(&tree), 0);
            assert!(levels(&trees.draft(index)) <= LONGEST_NEST);
            assert!(met.insert(tree.cells));
        }
    }
}
