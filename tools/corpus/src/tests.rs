//! On sources that are told in full, and on this tool's own.

use crate::corpus::Corpus;
use crate::figures::{Figure, Figures};
use crate::places::places;
use crate::rewritten::{judged, Compared, Pairs};
use crate::spans::Source;
use crate::taken::{Joined, Taken};
use readings::printed;

/// The figures of a text in which nothing may be read otherwise.
fn figures(text: &str) -> Figures {
    let (mut corpus, mut figures) = (Corpus::default(), Figures::default());
    let joined = Joined::new(&[("a text".to_string(), text.to_string())]);
    let taken = Taken::new(&joined, "2021").expect("a text that rustc parses");
    corpus.take(taken, &mut figures);
    assert_eq!(corpus.finish() + figures.of(Figure::Otherwise), 0);
    figures
}

/// Each tree's context and source text, in the order of the printed tree.
fn trees(text: &str) -> Vec<(u16, &str)> {
    let printed = printed::of_source(text, "2021").expect("a text that rustc parses");
    let (source, value) = (Source::new(text), printed::parsed(&printed));
    let found = places(&source, &value).trees;
    found.iter().map(|found| (found.context, source.of(found.taken.values[0]))).collect()
}

#[test]
fn contexts() {
    let text = "const A: [u8; 1 + 1] = [2; 2]; fn f() {
        if (a) { b } else if c { d; }
        for 1 in e { break 'x; }
        match (g) { 5..=6 if h => (i), _ => { j } }
        let k = |l| m(n);
        S { o, p: q, ..r }
    }";
    let meant = [
        (0, "1 + 1"),
        (0, "[2; 2]"),
        (0, "2"),
        (0, "2"),
        (1, "if (a) { b } else if c { d; }"),
        (3, "a"),
        (1, "b"),
        (3, "c"),
        (1, "d"),
        (1, "for 1 in e { break 'x; }"),
        (3, "e"),
        (1, "break 'x"),
        (1, "match (g) { 5..=6 if h => (i), _ => { j } }"),
        (3, "g"),
        (0, "h"),
        (2, "i"),
        (2, "{ j }"),
        (1, "j"),
        (0, "|l| m(n)"),
        (1, "S { o, p: q, ..r }"),
        (0, "q"),
        (0, "r"),
    ];
    assert_eq!(trees(text), meant);
}

#[test]
fn pairs_of_both_and_of_one_alone() {
    let text = "fn f() { (a * b) + (c - (d - e)); ((g)); let h = (-1i8).abs(); }";
    let figures = figures(text);
    assert_eq!(figures.of(Figure::Both), 3);
    // Round a * b, and two round g.
    assert_eq!(figures.of(Figure::SourceAlone), 3);
    assert_eq!(figures.of(Figure::OursAlone), 0);
}

/// Places are counted in characters, and a struct before `else` has a pair that no row asks
/// for.
#[test]
fn other_places() {
    let text = "fn f() { /* ² */ let (g, _) = (h, \"²\") ; let I { .. } = (I { x: (g) }) else { return }; }";
    let figures = figures(text);
    assert_eq!(figures.of(Figure::BeforeElse), 1);
    assert_eq!(figures.of(Figure::SourceAlone), 1);
}

/// Without its pair it is another tree, which rustc tells.
#[test]
fn a_pair_that_is_left_out() {
    let text = "fn f() { a - (b - c) }";
    let printed = printed::of_source(text, "2021").expect("a text that rustc parses");
    let (source, value) = (Source::new(text), printed::parsed(&printed));
    let mut told = places(&source, &value).trees.into_iter().map(|found| {
        let pairs = Pairs { by_node: vec![0; found.taken.values.len()], ends_in_brace: false };
        let compared = Compared::new(&source, &found, &pairs);
        judged(&source, "2021", &value, &[&compared])
    });
    assert_eq!(told.next(), Some(Some("another tree".to_string())));
}

#[test]
fn own_files() {
    assert_eq!(crate::short(&["tools/corpus"]), 0);
}
