//! What the pairs of trees prevent.

use super::{lexed, loaded, plain_trees};
use model::generate::named::names;
use model::written::without_parens;
use tezhukor::build::{self, binary, call, lit, path, ty, unary, Context, Expr, Mutability, Op};
use tezhukor::text::Names;
use tezhukor::{contexts, Reading, Tree};

/// Each added pair of random trees: what stands without it is never the tree; its text is
/// its tokens, and the text of its reading reads as that.
#[test]
fn pairs_prevent_another_tree() {
    let (names, mut counts) = (Names::new(&names()), [0; 3]);
    for table in plain_trees(300).filter(|table| table.count <= 60) {
        let tree = loaded(&table);
        let prevented = tree.prevented(&names).expect("a plain tree");
        let rows = tree.rows();
        assert_eq!(prevented.len(), rows.iter().filter(|row| row.has_outer_pair()).count());
        for prevented in prevented {
            assert!(rows[usize::from(prevented.node) - 1].has_outer_pair());
            assert_eq!(lexed(&prevented.text), prevented.tokens);
            let read = Tree::read(tree.context(), &prevented.tokens);
            match prevented.reading {
                Reading::Other { tree: other, text, .. } => {
                    assert_eq!(read.as_ref(), Ok(&other));
                    assert_ne!(other.cells(), without_parens(&table));
                    assert_eq!(Tree::read(tree.context(), &lexed(&text)), read);
                    counts[0] += 1;
                }
                Reading::None => counts[1] += 1,
                Reading::TooLarge => counts[2] += 1,
            }
        }
    }
    assert!(counts[0] > 500 && counts[1] > 100 && counts[2] == 0, "{counts:?}");
}

fn first_prevented(expr: Expr, context: Context, lines: &str) -> [String; 2] {
    let tree = expr.tree(context).expect("a tree");
    let prevented = tree.prevented(&Names::new(lines)).expect("a plain tree").remove(0);
    let reads = match prevented.reading {
        Reading::None => "nothing".to_string(),
        Reading::TooLarge => "too much".to_string(),
        Reading::Other { text, .. } => text,
    };
    [prevented.text, reads]
}

#[test]
fn what_stands_without_a_pair() {
    let lines = "a\nb\nc\nd\nf\nT\n1\n0";
    let [a, b, c, d, f] = [1, 2, 3, 4, 5].map(path);
    let sum = binary(Op::Add, a.clone(), b.clone());
    let difference = binary(Op::Sub, b.clone(), c.clone());
    let negative = |operand| unary(build::UnaryOp::Neg, operand);
    let as_t = a.clone().cast(ty::path(6));
    let less = binary(Op::Lt, as_t.clone(), b.clone());
    let shift = |op| binary(op, path(3), path(4));
    let reference = || build::reference(Mutability::Const, path(1));
    let greater = binary(Op::Gt, c.clone(), negative(d.clone()));
    for (expr, text, reads) in [
        (binary(Op::Sub, a.clone(), difference), "a - b - c", "(a - b) - c"),
        (binary(Op::Mul, sum.clone(), c.clone()), "a + b * c", "a + (b * c)"),
        (negative(a.clone()).method_call(5, []), "-a.f()", "-(a.f())"),
        (
            call(f.clone(), [binary(Op::Mul, sum, c.clone()), d]),
            "f(a + b * c, d)",
            "f(a + (b * c), d)",
        ),
        (call(a.clone().field(5), [b.clone()]), "a.f(b)", "a.f(b)"),
        (less.clone(), "a as T < b", "nothing"),
        (
            call(f.clone(), [less.clone(), greater]),
            "f(a as T < b, c > -d)",
            "f((a as T<b, c>) - d)",
        ),
        (
            call(f.clone(), [less.clone(), shift(Op::Shr)]),
            "f(a as T < b, c >> d)",
            "f((a as T<b, c>) > d)",
        ),
        (call(f, [less, shift(Op::Ge)]), "f(a as T < b, c >= d)", "f((a as T<b, c>) = d)"),
        (binary(Op::Sub, a.clone(), lit(7)).member(8), "a - 1 .0", "a - (1 .0)"),
        (
            build::reference(Mutability::Const, binary(Op::Mul, reference(), b.clone())),
            "& &a * b",
            "(& &a) * b",
        ),
        (binary(Op::Eq, binary(Op::Eq, a, b), c), "a == b == c", "nothing"),
    ] {
        assert_eq!(first_prevented(expr, Context::None, lines), [text, reads]);
    }
    let rule = binary(Op::Eq, path(1), build::struct_());
    assert_eq!(first_prevented(rule, Context::Condition, lines), ["a == S { .. }", "nothing"]);
}

/// A tree without pairs prevents nothing, and what is not plain is refused.
#[test]
fn nothing_is_prevented() {
    let names = Names::default();
    let plain = path(1).tree(Context::None).expect("a tree");
    assert_eq!(plain.prevented(&names), Ok(vec![]));
    let refusal = Err(tezhukor::Refusal::NotPlain);
    assert_eq!(build::if_().tree(Context::None).expect("a tree").prevented(&names), refusal);
    assert_eq!(path(1).tree(Context::Statement).expect("a tree").prevented(&names), refusal);
    assert_eq!(contexts::PLAIN, [Context::None, Context::Condition].map(Context::number));
}

/// The deepest trees: a reading with more levels is told as such, and groups that would be too
/// many levels are left out.
#[test]
fn deep_readings() {
    let prevented = |expr: Expr| {
        let tree = expr.tree(Context::None).expect("a tree of 128 levels");
        tree.prevented(&Names::new("a\nb")).expect("a plain tree")
    };
    let deep = (0..127).fold(path(2), |inner, _| binary(Op::Sub, path(1), inner));
    let all = prevented(deep);
    assert_eq!(all.len(), 126);
    assert!(all.iter().all(|pair| matches!(pair.reading, Reading::Other { .. })));
    let chain = |length: usize| (0..length).fold(path(2), |inner, _| inner.field(1));
    let negative = prevented(unary(build::UnaryOp::Neg, chain(125)).question()).remove(0);
    let Reading::Other { text, grouped: 1, .. } = negative.reading else {
        panic!("{negative:?}");
    };
    assert_eq!(text, negative.text);
    let right = binary(Op::Sub, path(1), path(2));
    let left = prevented(binary(Op::Sub, chain(126), right)).remove(0);
    assert_eq!(left.reading, Reading::TooLarge);
}
