//! Document 01's listing and the cases that it marks for proof.

use model::forms::{operator::*, *};
use model::table;
use oracle::{answers, text};

/// A Path without attributes.
const NAME: [u16; 5] = [PATH, 0, 0, 0, 0];

/// A path type without arguments.
const TYPE: [u16; 5] = [TYPE_PATH, 0, 1, 0, 0];

/// The cells of nodes that are given as document 01 has them. Document 02: "each node gains
/// a 0", its symbol.
fn cells(nodes: &[[u16; 5]]) -> Vec<u16> {
    nodes.iter().flat_map(|node| node.iter().copied().chain([0])).collect()
}

/// The pair of a node of a tree, given node by node.
fn pair(context: u16, nodes: &[[u16; 5]], node: u16) -> u16 {
    answers(context, nodes.len() as u16, &cells(nodes)).row(node).pair
}

/// A Binary of the first two operands.
fn binary(operator: u16) -> [u16; 5] {
    [BINARY, 0, operator, 2, 3]
}

#[test]
fn p1_listing() {
    let mut file = vec![0, 5, 5, 0, 2, 2, 3, 0, 5, 0, 0, 4, 5, 0];
    file.extend([26, 0, 0, 0, 0, 0].repeat(3));
    let table = table::read(&file).expect("well formed");
    assert_eq!(table::write(&table), file);
    let answers = answers(table.context, table.count, &table.cells);
    let listing = "ok 5
1 0 12 0 0 0
2 1 11 0 12 384
3 0 15 12 0 0
4 0 15 0 11 256
5 0 15 11 0 0
";
    assert_eq!(text::rows(&answers), listing);
}

#[test]
fn p2_differences() {
    let right = [binary(SUB), NAME, [BINARY, 0, SUB, 4, 5], NAME, NAME];
    assert_eq!(pair(0, &right, 3), 1);
    let left = [binary(SUB), [BINARY, 0, SUB, 4, 5], NAME, NAME, NAME];
    assert_eq!(pair(0, &left, 2), 0);
}

#[test]
fn p3_cast_to_a_bare_path() {
    for (operator, expected) in [(LT, 1), (LE, 0)] {
        let tree = [binary(operator), [CAST, 0, 0, 4, 5], NAME, NAME, TYPE];
        assert_eq!(pair(0, &tree, 2), expected);
    }
}

#[test]
fn p4_cast_to_a_path_with_arguments() {
    let generic = [TYPE_PATH, 0, 2, 0, 6];
    let link = [LINK, 0, 0, 7, 0];
    let tree = [binary(LT), [CAST, 0, 0, 4, 5], NAME, NAME, generic, link, TYPE];
    assert_eq!(pair(0, &tree, 2), 0);
}

#[test]
fn p5_cast_at_the_end_of_a_sum() {
    let sum = [BINARY, 0, ADD, 4, 5];
    let tree = [binary(LT), sum, NAME, NAME, [CAST, 0, 0, 6, 7], NAME, TYPE];
    assert_eq!(pair(0, &tree, 5), 1);
    assert_eq!(pair(0, &tree, 2), 0);
}

#[test]
fn p6_call_of_a_field() {
    for (detail, expected) in [(0, 1), (1, 0)] {
        let tree = [[CALL, 0, 0, 2, 0], [FIELD, 0, detail, 3, 0], NAME];
        assert_eq!(pair(0, &tree, 2), expected);
    }
}

#[test]
fn p7_comparison_under_comparison() {
    for outer in EQ..EQ + 6 {
        for inner in EQ..EQ + 6 {
            let left = [binary(outer), [BINARY, 0, inner, 4, 5], NAME, NAME, NAME];
            assert_eq!(pair(0, &left, 2), 1);
            let right = [binary(outer), NAME, [BINARY, 0, inner, 4, 5], NAME, NAME];
            assert_eq!(pair(0, &right, 3), 1);
        }
    }
}

#[test]
fn p8_match_in_a_statement() {
    let matched = [MATCH, 0, 0, 0, 0];
    assert_eq!(pair(1, &[binary(ADD), matched, NAME], 2), 1);
    assert_eq!(pair(1, &[[FIELD, 0, 0, 2, 0], matched], 2), 0);
}

#[test]
fn p9_struct_in_a_condition() {
    assert_eq!(pair(3, &[binary(EQ), NAME, [STRUCT, 0, 0, 0, 0]], 3), 1);
}

#[test]
fn p10_return_without_value() {
    for (operator, expected) in [(SUB, 1), (ADD, 0)] {
        assert_eq!(pair(0, &[binary(operator), [RETURN, 0, 0, 0, 0], NAME], 2), expected);
    }
}

#[test]
fn p11_inner_attributes() {
    assert_eq!(pair(0, &[[BINARY, 1, ADD, 2, 3], NAME, NAME], 1), 2);
}

#[test]
fn p12_label_under_a_break() {
    for (attributes, expected) in [(0, 1), (1, 0), (2, 0)] {
        let tree = [[BREAK, 0, 0, 2, 0], [GROUP, attributes, 0, 3, 0], [LOOP, 0, 1, 0, 0]];
        assert_eq!(pair(0, &tree, 2), expected);
    }
}

/// A tree that needs scan_right to ask an operand a second time.
#[test]
fn let_over_a_prefix() {
    let tree = [
        binary(EQ),
        NAME,
        [GROUP, 0, 0, 4, 0],
        [LET, 0, 0, 5, 0],
        [UNARY, 0, 2, 6, 0],
        [GROUP, 0, 0, 7, 0],
        [CAST, 0, 0, 8, 9],
        NAME,
        TYPE,
    ];
    let row = answers(0, 9, &cells(&tree)).row(3);
    assert_eq!(row.cells(), [1, 5, 6, 0, 0]);
}
