//! Trees as Rust: the text is lexed to the tokens that are written, by the crate's lexer and
//! by one that always takes the longest sign, as rustc's does; and what pairs prevent.

mod prevented;

use model::generate::named::{names, with_names};
use model::generate::Family;
use model::recorded::records;
use model::table::{self, NodeTable};
use model::written::without_parens;
use tezhukor::build::{self, binary, call, lit, path, ty, unary, Context, Expr, Mutability, Op};
use tezhukor::codes::{self, has_symbol, Token};
use tezhukor::text::{lexer, Names, Text, Unspelled};
use tezhukor::Tree;

/// Plain trees in both contexts, with names for their symbols.
fn plain_trees(each: u64) -> impl Iterator<Item = NodeTable> {
    let families = [(Family::Plain, 0), (Family::Structs, 0), (Family::Structs, 3)];
    let tree = move |(family, context): (Family, u16), index| {
        let mut table = Family::tree(family, 81 + u64::from(context), index);
        table.context = context;
        with_names(&mut table);
        table
    };
    families.into_iter().flat_map(move |from| (0..each).map(move |index| tree(from, index)))
}

fn loaded(table: &NodeTable) -> Tree {
    Tree::load(&table::write(table)).expect("an accepted tree")
}

/// A text as tokens with symbols by their names.
fn lexed(text: &str) -> Vec<Token> {
    let tokens = lexer::tokens(text).expect("tokens");
    let token = tokens.iter().map(|token| match has_symbol(token.code) {
        true => {
            let number = text[token.at..token.end].trim_start_matches('x').parse();
            Token::new(token.code, number.expect("a name that is spelled by its symbol"))
        }
        false => token.code.into(),
    });
    token.collect()
}

/// Signs of Rust of more than one character.
const SIGNS: [&str; 26] = [
    "<<=", ">>=", "...", "..=", "&&", "||", "<<", ">>", "+=", "-=", "*=", "/=", "%=", "^=", "&=",
    "|=", "==", "!=", ">=", "<=", "..", "::", "->", "<-", "=>", "//",
];

fn word_length(text: &str) -> usize {
    text.find(|c: char| c != '_' && !c.is_alphanumeric()).unwrap_or(text.len())
}

/// The tokens of a text without quotes, the longest first wherever one begins.
fn longest_first(text: &str) -> Vec<&str> {
    let (mut tokens, mut rest) = (Vec::new(), text.trim_start());
    while let Some(first) = rest.chars().next() {
        let mut length = word_length(rest);
        if first.is_ascii_digit() {
            let behind = rest[length..].strip_prefix('.');
            let is_member = |c: char| c == '.' || c == '_' || c.is_alphabetic();
            if let Some(fraction) = behind.filter(|behind| !behind.starts_with(is_member)) {
                length += 1 + word_length(fraction);
            }
        }
        if length == 0 {
            let sign = SIGNS.iter().find(|sign| rest.starts_with(**sign));
            length = sign.map_or(first.len_utf8(), |sign| sign.len());
        }
        tokens.push(&rest[..length]);
        rest = rest[length..].trim_start();
    }
    tokens
}

/// Rust's tokens for a token of a tree.
fn of_rust(token: &Token) -> Vec<String> {
    let words = match token.code {
        codes::NAME => format!("x{}", token.symbol),
        codes::LITERAL | codes::MEMBER => token.symbol.to_string(),
        codes::STRUCT => "S { .. }".to_string(),
        codes::AND_MUT => "& mut".to_string(),
        codes::STAR_CONST => "* const".to_string(),
        codes::STAR_MUT => "* mut".to_string(),
        code => codes::SPELLED[usize::from(code)].to_string(),
    };
    words.split(' ').map(str::to_string).collect()
}

#[test]
fn text_is_lexed_to_the_tokens() {
    let (names, mut trees, mut blanks) = (Names::new(&names()), 0, 0);
    for table in plain_trees(1_500) {
        let tree = loaded(&table);
        let text = tree.to_rust(&names).expect("a plain tree");
        let tokens = tree.tokens().expect("a plain tree");
        assert_eq!(lexed(&text), tokens, "{text}");
        let rust: Vec<String> = tokens.iter().flat_map(of_rust).collect();
        assert_eq!(longest_first(&text), rust, "{text}");
        // What shows trees gives the same text.
        assert_eq!(Text::new(&tree, &tree.rows(), &names).as_str(), text);
        let read = Tree::read(tree.context(), &lexed(&text)).expect("a reading");
        assert_eq!(read.cells(), without_parens(&table));
        blanks += u64::from(text.contains("& &") || text.contains("- -") || text.contains("> >"));
        trees += 1;
    }
    assert!(trees == 4_500 && blanks > 300, "{trees} trees, {blanks} of them with such blanks");
}

/// Without names, on recorded trees: letters, `1` and `0` are tokens as well.
#[test]
fn letters_are_lexed_to_the_tokens() {
    let mut trees = 0;
    for record in records("tokens") {
        let Ok(tree) = Tree::load(&record.bytes) else {
            continue;
        };
        let text = tree.to_rust(&Names::default());
        match tree.tokens() {
            Err(_) => assert_eq!(text, Err(Unspelled::NotPlain)),
            Ok(tokens) => {
                let text = text.expect("a plain tree");
                let codes = |tokens: &[Token]| tokens.iter().map(|t| t.code).collect::<Vec<_>>();
                let read = lexer::tokens(&text).expect("tokens");
                assert_eq!(read.iter().map(|t| t.code).collect::<Vec<_>>(), codes(&tokens));
                assert_eq!(Text::new(&tree, &tree.rows(), &Names::default()).as_str(), text);
                trees += 1;
            }
        }
    }
    assert!(trees > 3_000, "{trees} trees");
}

fn rust(expr: Expr, lines: &str) -> Result<String, Unspelled> {
    expr.tree(Context::None).expect("a tree").to_rust(&Names::new(lines))
}

#[test]
fn blanks_stand_where_signs_would_merge() {
    let reference = |operand| build::reference(Mutability::Const, operand);
    let negative = |operand| unary(build::UnaryOp::Neg, operand);
    for (expr, text) in [
        (reference(reference(path(1))), "& &x"),
        (reference(build::reference(Mutability::Mut, path(1))), "& &mut x"),
        (negative(negative(negative(path(1)))), "- - -x"),
        (binary(Op::BitAnd, path(1), reference(path(1))), "x & &x"),
        (binary(Op::And, path(1), reference(path(1))), "x && &x"),
        (binary(Op::Lt, path(1), negative(path(1))), "x < -x"),
        (binary(Op::Div, path(1), unary(build::UnaryOp::Deref, path(1))), "x / *x"),
        (lit(2).field(1), "1.5 .x"),
        (lit(3).member(4), "2 .0"),
        (path(1).member(4).member(4).field(1), "x.0 .0.x"),
        (path(1).cast(ty::angle(1, [ty::angle(1, [ty::path(1)])])), "x as x<x<x> >"),
        (path(1).cast(ty::reference(Mutability::Const, ty::never())), "x as &!"),
        (call(path(1), [reference(path(1)), lit(5)]), "x(&x, \"a - b\")"),
        (lit(5).method_call(1, []), "\"a - b\".x()"),
    ] {
        assert_eq!(rust(expr, "x\n1.5\n2\n0\n\"a - b\"").as_deref(), Ok(text));
    }
}

/// A line that is not one token of its node's kind is told, wherever it stands.
#[test]
fn names_are_tokens() {
    let lines =
        "a - b\nif\n1 + 2\n-1\nx.y\nf(\n_\ntrue\n0x\na::b\nawait\n'a\n\"a\" \"b\"\n// x\na b\n#";
    for (symbol, line) in (1..).zip(lines.lines()) {
        let unspelled = Err(Unspelled::Name { symbol, line: line.to_string() });
        let takes = |expr: Expr| rust(binary(Op::Mul, path(100), expr), lines);
        let (is_path, is_literal) = (line == "a::b", matches!(line, "true" | "0x"));
        let said = |is_it: bool, told: Result<String, Unspelled>| match is_it {
            true => assert!(told.is_ok(), "{line}"),
            false => assert_eq!(told, unspelled, "{line}"),
        };
        said(is_path, takes(path(symbol)));
        said(is_path, takes(path(100).cast(ty::path(symbol))));
        said(is_literal, takes(lit(symbol)));
        said(false, takes(path(100).field(symbol)));
        said(false, takes(path(100).method_call(symbol, [])));
        said(false, takes(path(100).member(symbol)));
    }
}
