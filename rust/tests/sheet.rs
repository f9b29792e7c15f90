//! The command `sheet`, as people run it.

use std::io::Write;
use std::path::PathBuf;
use std::process::{Command, Output, Stdio};
use tezhukor::text::Names;
use tezhukor::{OpenSheet, Tree};

/// Runs `sheet` with arguments and bytes on its standard input.
fn sheet(arguments: &[&str], input: &[u8]) -> Output {
    let mut child = Command::new(env!("CARGO_BIN_EXE_sheet"))
        .args(arguments)
        .stdin(Stdio::piped())
        .stdout(Stdio::piped())
        .stderr(Stdio::piped())
        .spawn()
        .expect("sheet runs");
    // It need not read all of it.
    let _ = child.stdin.take().expect("its input").write_all(input);
    child.wait_with_output().expect("it ends")
}

/// What is printed for a status.
fn printed(arguments: &[&str], input: &[u8], status: i32) -> String {
    let output = sheet(arguments, input);
    let message = String::from_utf8_lossy(&output.stderr).to_string();
    assert_eq!(output.status.code(), Some(status), "{arguments:?}: {message}");
    match status {
        0 => String::from_utf8(output.stdout).expect("text"),
        _ => message,
    }
}

fn tree_of(text: &str) -> Vec<u8> {
    let output = sheet(&["read", text], b"");
    assert_eq!(output.status.code(), Some(0), "{text}");
    output.stdout
}

/// A name for a file that goes when the test is done.
struct Scratch(PathBuf);

impl Scratch {
    fn new(name: &str) -> Scratch {
        Scratch(std::env::temp_dir().join(format!("tezhukor-{}-{name}", std::process::id())))
    }

    fn name(&self) -> &str {
        self.0.to_str().expect("text")
    }
}

impl Drop for Scratch {
    fn drop(&mut self) {
        let _ = std::fs::remove_file(&self.0);
    }
}

#[test]
fn first_example() {
    let names = Scratch::new("names");
    let text = "offset - (station - start)";
    let file = sheet(&["read", "--names", names.name(), text], b"").stdout;
    assert_eq!(printed(&["show", "-"], &file, 0), "a - (b - c)\n");
    assert_eq!(printed(&["show", "--names", names.name(), "-"], &file, 0), format!("{text}\n"));
    let why = printed(&["why", "--names", names.name(), "-"], &file, 0);
    assert_eq!(
        why,
        "(station - start): without it: offset - station - start, which reads \
         (offset - station) - start\n  \
         node 3 `station - start`, right operand of node 1, Binary `-`: precedence Sum (11), \
         the owner's Sum (11); the owner's test asks for it: it groups what is not above Sum (11); \
         `-` leans left: of operators of its level the left one comes first\n\
         1 pair; no fewer do\n"
    );
    assert_eq!(printed(&["check", "-"], &file, 0), "accepted: 5 nodes, context 0, plain\n");
    let rows =
        "ok 5\n1 0 11 0 0 0\n2 0 15 0 11 384\n3 1 11 11 0 0\n4 0 15 0 11 384\n5 0 15 11 0 0\n";
    assert_eq!(printed(&["rows", "-"], &file, 0), rows);
    let tokens = "ok 7\n32 1 35 32 1 32 36\n1 0 0 2 0 3 0\nNAME - ( NAME - NAME )\n";
    assert_eq!(printed(&["tokens", "-"], &file, 0), tokens);
}

/// What is read and shown is shown alike, with the names given back.
#[test]
fn shown_as_read() {
    let names = Scratch::new("shown");
    for text in [
        "(a + b) * c",
        "(x as usize) < y",
        "x + (a as T) < b",
        "a as T<A> < b",
        "a as T <= b",
        "(s.f)(1)",
        "s.0(1)",
        "s.f(1)",
        "(a == b) == c",
        "a == (b < c)",
        "a = b = c",
        "(a = b) + c",
        "-x.m(& &y, *z)[i]? as *const &mut Map<_, Vec<u8> > as !",
        "- -x.0 .1.f",
        "(-x).abs()",
        "!(a && b) || c",
        "1 .0 + 1.5 .f",
        "std::f64::PI * 2.0 - \"a\".len()",
        "a.await?.b",
        "&mut *x += y << 2",
        "S { .. } == -S { .. }.f(S { .. })?",
        "(S { .. } - x).f",
    ] {
        let output = sheet(&["read", "--names", names.name(), text], b"");
        assert_eq!(output.status.code(), Some(0), "{text}");
        let shown = printed(&["show", "--names", names.name(), "-"], &output.stdout, 0);
        assert_eq!(shown.trim_end(), text);
    }
}

/// Equal names have equal symbols, and a line each in the names file.
#[test]
fn equal_names() {
    let names = Scratch::new("equal");
    let text = "a.m(b, 1) - a as a < 1 .m.0";
    let read = "a.m(b, 1) - (a as a) < 1 .m.0";
    let file = sheet(&["read", "--names", names.name(), read], b"").stdout;
    assert_eq!(std::fs::read_to_string(&names.0).expect("names"), "a\nm\nb\n1\n0\n");
    let shown = printed(&["show", "--names", names.name(), "-"], &file, 0);
    assert_eq!(shown.trim_end(), text.replace("a as a", "(a as a)"));
    // Without the file equal names still have equal letters.
    assert_eq!(printed(&["show", "-"], &file, 0), "a.b(c, 1) - (a as A) < 1 .b.0\n");
    // With another file other names, and in place of a line that is missing letters.
    std::fs::write(&names.0, "first\n\nthird\n").expect("a file");
    let shown = printed(&["show", "--names", names.name(), "-"], &file, 0);
    assert_eq!(shown, "first.b(third, 1) - (first as first) < 1 .b.0\n");
}

/// Names stay where they are when the nodes are numbered otherwise, and when the tree is
/// saved.
#[test]
fn names_in_any_numbering() {
    let names = Scratch::new("numbered");
    std::fs::write(&names.0, "offset\nstation\nstart\n").expect("a file");
    let shown = |file: &[u8]| printed(&["show", "--names", names.name(), "-"], file, 0);
    let [outer, inner] = [[5, 0, 1, 2, 3, 0], [5, 0, 1, 4, 5, 0]];
    let name = |symbol| [26, 0, 0, 0, 0, symbol];
    let head = [0, 5];
    let file = [&head[..], &outer, &name(1), &inner, &name(2), &name(3)].concat();
    let [outer, inner] = [[5, 0, 1, 5, 2, 0], [5, 0, 1, 4, 3, 0]];
    let turned = [&head[..], &outer, &inner, &name(3), &name(2), &name(1)].concat();
    assert_eq!(shown(&file), "offset - (station - start)\n");
    assert_eq!(shown(&turned), shown(&file));
    let saved = sheet(&["canonical", "-"], &turned).stdout;
    assert_eq!(saved, file);
    let why = |file: &[u8]| printed(&["why", "--names", names.name(), "-"], file, 0);
    assert!(why(&file).contains("\n  node 3 `station - start`"));
    assert!(why(&turned).contains("\n  node 2 `station - start`"));
}

/// A file of five numbers a node, as older versions had them, is refused.
#[test]
fn older_files() {
    let older = [0, 3, 5, 0, 0, 2, 3, 26, 0, 0, 0, 0, 26, 0, 0, 0, 0];
    let message = printed(&["check", "-"], &older, 1);
    assert!(message.starts_with("sheet: refused (5) at node 3, byte 17: "), "{message}");
}

/// A comma after the last item of a list is read, and not shown.
#[test]
fn commas_after_last_items() {
    let names = Scratch::new("commas");
    for (text, without) in [
        ("f(a, b,)", "f(a, b)"),
        ("f(a , )", "f(a)"),
        ("s.f(1,)", "s.f(1)"),
        ("(s.f)(1,)", "(s.f)(1)"),
        ("x as T<A,> < y", "x as T<A> < y"),
        ("x as Map<K, Vec<V,>,> + 1", "x as Map<K, Vec<V> > + 1"),
        ("f(g(a,), b - (c - d),)[i](&&e,)?", "f(g(a), b - (c - d))[i](& &e)?"),
    ] {
        let output = sheet(&["read", "--names", names.name(), text], b"");
        assert_eq!(output.status.code(), Some(0), "{text}");
        assert_eq!(output.stdout, tree_of(without), "{text}");
        let shown = printed(&["show", "--names", names.name(), "-"], &output.stdout, 0);
        assert_eq!(shown.trim_end(), without);
    }
}

#[test]
fn reasons() {
    let why = |text| printed(&["why", "-"], &tree_of(text), 0);
    assert!(why("(x as usize) < y").contains("only the generics flag makes it so"));
    assert!(why("x + (a as T) < b").contains("right operand of node 2, Binary `+`"));
    assert!(why("x + (a as T) < b").contains("only the generics flag makes it so"));
    assert!(why("(s.f)(x)").contains("a named field that is called"));
    assert!(why("(a == b) == c").contains("not above Compare (6)"));
    assert!(why("(-x).f").contains("below Unambiguous (15)"));
    assert_eq!(why("a + b * c"), "no pair was added\n");
    // A match that begins a statement, left of `+`.
    let statement = [1, 3, 5, 0, 0, 2, 3, 0, 23, 0, 0, 0, 0, 0, 26, 0, 0, 0, 0, 0];
    assert!(printed(&["why", "-"], &statement, 0).contains("parenthesize asks for it: part 1"));
    assert_eq!(printed(&["show", "-"], &statement, 0), "(match .. { .. }) + a\n");
    // Binary with inner attributes alone.
    let inner = [0, 3, 5, 1, 0, 2, 3, 0, 26, 0, 0, 0, 0, 0, 26, 0, 0, 0, 0, 0];
    assert_eq!(
        printed(&["why", "-"], &inner, 0),
        "node 1 `(a + b)`, the root: an inner pair; Binary `+` has one whenever it has \
         attributes, also inner ones\n\
         0 outer pairs, 1 inner pair; the tree is not plain: nothing is promised of the count\n"
    );
}

/// A pair that only our callee order adds is told so.
#[test]
fn callees() {
    let name = [26, 0, 0, 0, 0, 0];
    let [call, group] = [[8, 0, 0, 2, 0, 0], [15, 0, 0, 3, 0, 0]];
    let ours = "; in our callee order, in the crate's it would have none\n1 pair;";
    let member = [&[0, 3][..], &call, &[13, 2, 1, 3, 0, 0], &name].concat();
    assert_eq!(printed(&["show", "-"], &member, 0), "(#[..] a.0)()\n");
    let why = printed(&["why", "-"], &member, 0);
    assert!(
        why.contains("it groups what is below Unambiguous (15)") && why.contains(ours),
        "{why}"
    );
    let grouped = |attributes| {
        let field = [13, attributes, 0, 4, 0, 0];
        [&[0, 4][..], &call, &group, &field, &name].concat()
    };
    assert_eq!(printed(&["show", "-"], &grouped(0), 0), "(a.b)()\n");
    let why = printed(&["why", "-"], &grouped(0), 0);
    let meant = "the owner's test asks for it: a named field in a group that is called, which \
                 would be a method call";
    assert!(why.contains(meant) && why.contains(ours), "{why}");
    // What both orders group, and what neither does.
    for file in [grouped(2), tree_of("(s.f)(x)"), tree_of("(-x)(y)")] {
        assert!(!printed(&["why", "-"], &file, 0).contains("order"));
    }
    assert_eq!(printed(&["why", "-"], &tree_of("s.0(x)"), 0), "no pair was added\n");
}

/// What each pair prevents, in the first of its lines.
#[test]
fn prevented() {
    let names = Scratch::new("prevented");
    for (text, lines) in [
        (
            "offset - (station - (start - grade))",
            &[
                "(station - (start - grade)): without it: offset - station - (start - grade), \
                 which reads (offset - station) - (start - grade)",
                "(start - grade): without it: offset - (station - start - grade), which reads \
                 offset - ((station - start) - grade)",
            ][..],
        ),
        (
            "(depth as usize) < limit",
            &["(depth as usize): without it: depth as usize < limit, which has no reading: the \
               text ends within type arguments; `<` behind a type name always opens them, so a \
               cast before `<` needs parentheses"],
        ),
        (
            "within((depth as usize) < limit)",
            &["(depth as usize): without it: within(depth as usize < limit), which has no \
               reading: behind a type name `<` opens type arguments, and `<<` is no operator"],
        ),
        (
            "(ring.advance)(stroke) + 1",
            &["(ring.advance): without it: ring.advance(stroke) + 1, which calls the method \
               `advance`"],
        ),
        (
            "(left < right) == wet",
            &["(left < right): without it: left < right == wet, which has no reading: \
               comparisons do not chain, so one of them needs parentheses"],
        ),
        (
            "within((reading as Limit) < low, high > -drift)",
            &["(reading as Limit): without it: within(reading as Limit < low, high > -drift), \
               which reads within((reading as Limit<low, high>) - drift)"],
        ),
        (
            "(lead + depth) * -(grade + 1)",
            &[
                "(lead + depth): without it: lead + depth * -(grade + 1), which reads \
                 lead + (depth * -(grade + 1))",
                "(grade + 1): without it: (lead + depth) * -grade + 1, which reads \
                 ((lead + depth) * (-grade)) + 1",
            ],
        ),
    ] {
        let file = sheet(&["read", "--names", names.name(), text], b"").stdout;
        let why = printed(&["why", "--names", names.name(), "-"], &file, 0);
        let mut firsts: Vec<&str> = why.lines().filter(|line| !line.starts_with("  ")).collect();
        assert!(firsts.pop().is_some_and(|line| line.contains("; no fewer do")), "{why}");
        assert_eq!(firsts, lines, "{why}");
    }
    // What is not plain has no tokens to leave a pair out of.
    let statement = [1, 3, 5, 0, 0, 2, 3, 0, 23, 0, 0, 0, 0, 0, 26, 0, 0, 0, 0, 0];
    assert!(printed(&["why", "-"], &statement, 0).starts_with("node 2 "));
}

/// A line of a names file that is no name is told; the text is shown all the same.
#[test]
fn lines_that_are_no_names() {
    let names = Scratch::new("lines");
    std::fs::write(&names.0, "offset\nstation - start\n").expect("a file");
    let output = sheet(&["show", "--names", names.name(), "-"], &tree_of("a * b"));
    assert_eq!(output.status.code(), Some(0));
    assert_eq!(output.stdout, b"offset * station - start\n");
    let message = "sheet: The line of symbol 2, `station - start`, is not the one token that \
                   stands for it.\n";
    assert_eq!(String::from_utf8_lossy(&output.stderr), message);
}

/// How many pairs there are, and what is promised of their number.
#[test]
fn counts() {
    let counted = |file: &[u8]| printed(&["show", "--count", "-"], file, 0);
    let last = |file: &[u8]| {
        let why = printed(&["why", "-"], file, 0);
        why.lines().last().expect("a line").to_string()
    };
    let two = tree_of("((a - (b - c)) * ((d)))");
    assert_eq!(counted(&two), "(a - (b - c)) * d\n2 pairs\n");
    assert_eq!(last(&two), "2 pairs; no fewer do");
    let none = tree_of("a - b(c)");
    assert_eq!(counted(&none), "a - b(c)\n0 pairs\n");
    assert_eq!(last(&none), "no pair was added");
    // A condition that is written with two pairs, and reads with one.
    let condition = |text| sheet(&["read", "--condition", text], b"").stdout;
    let structs = condition("x == (S {} + S {})");
    assert_eq!(counted(&structs), "a == (S { .. }) + (S { .. })\n2 pairs\n");
    assert_eq!(last(&structs), "2 pairs; in a condition fewer may do: the count alone is promised");
    // A tree with parentheses of its own: (a) + b, times c.
    let names = [[26, 0, 0, 0, 0, 1], [26, 0, 0, 0, 0, 2], [26, 0, 0, 0, 0, 3]];
    let nodes = [[5, 0, 2, 2, 6, 0], [5, 0, 0, 3, 5, 0], [25, 0, 0, 4, 0, 0]];
    let parens = [&[0, 6][..], &nodes.concat(), &names.concat()].concat();
    assert_eq!(counted(&parens), "((a) + b) * c\n1 pair\n");
    let promise = "1 pair; beside the sheet's own parentheses, of which none is counted: the \
                   count alone is promised";
    assert_eq!(last(&parens), promise);
    let names = Scratch::new("counts");
    std::fs::write(&names.0, "station\nstart\n").expect("a file");
    let named = printed(&["show", "--names", names.name(), "--count", "-"], &none, 0);
    assert_eq!(named, "station - start(c)\n0 pairs\n");
}

/// A struct in a condition is read with its pair, shown and explained with it, and refused
/// without.
#[test]
fn conditions() {
    let names = Scratch::new("conditions");
    let condition = |text: &str| {
        let output = sheet(&["read", "--condition", "--names", names.name(), text], b"");
        assert_eq!(output.status.code(), Some(0), "{text}");
        output.stdout
    };
    let shown = |file: &[u8]| printed(&["show", "--names", names.name(), "-"], file, 0);
    let file = condition("reading == (Limit { .. })");
    assert_eq!(file, [3, 3, 5, 0, 12, 2, 3, 0, 26, 0, 0, 0, 0, 1, 32, 0, 0, 0, 0, 0]);
    assert_eq!(shown(&file), "reading == (S { .. })\n");
    assert_eq!(
        printed(&["why", "--names", names.name(), "-"], &file, 0),
        "(S { .. }): without it: reading == S { .. }, which has no reading: in a condition a \
         struct needs parentheses, since its brace would open the block\n  \
         node 3 `S { .. }`, right operand of node 1, Binary `==`: precedence Unambiguous (15), \
         the owner's Compare (6); parenthesize asks for it: part 4, a struct in a condition, \
         where its brace would open the block\n\
         1 pair; in a condition fewer may do: the count alone is promised\n"
    );
    assert_eq!(printed(&["check", "-"], &file, 0), "accepted: 3 nodes, context 3, plain\n");
    let tokens = "ok 5\n32 12 35 46 36\n1 0 0 0 0\nNAME == ( STRUCT )\n";
    assert_eq!(printed(&["tokens", "-"], &file, 0), tokens);
    // The options in the other order, and the text on standard input.
    let arguments = ["read", "--names", names.name(), "--condition"];
    assert_eq!(sheet(&arguments, b"reading == (Limit {})\n").stdout, file);
    // Outside of a condition the same has no pair.
    let file = tree_of("reading == (Limit { .. })");
    assert_eq!(printed(&["show", "-"], &file, 0), "a == S { .. }\n");
    assert_eq!(printed(&["why", "-"], &file, 0), "no pair was added\n");
    assert_eq!(file, tree_of("reading == Limit {}"));
    // In parentheses, brackets and argument lists a struct needs no pair of its own.
    for text in [
        "f(S { .. }, -S { .. }) && a[S { .. }]",
        "a.f(S { .. }.g, S { .. } == S { .. })",
        "(S { .. }.f)()",
        "-(S { .. }) == (S { .. }).f?",
        "a = (S { .. }) as T + (S { .. })()",
        "(S { .. })",
        "a as T <= b",
    ] {
        assert_eq!(shown(&condition(text)).trim_end(), text);
    }
    for (text, column) in [("x == Limit { .. }", 6), ("S {}", 1), ("f(S {}) + -S {}.f", 12)] {
        let message = printed(&["read", "--condition", text], b"", 1);
        let meant = "sheet: refused (15): in a condition a struct needs parentheses, since its \
                     brace would open the block";
        assert!(message.starts_with(&format!("{meant} (line 1, column {column})")), "{message}");
    }
    for text in ["x S {}", "(S {}", "(S {}) S {}", "x == (S {}) <", "x as T < (S {})"] {
        let message = printed(&["read", "--condition", text], b"", 1);
        assert!(!message.contains("condition"), "{message}");
    }
}

/// Where the lean of an operator asks for a pair, it is said.
#[test]
fn leans() {
    let why = |text| printed(&["why", "-"], &tree_of(text), 0);
    let comparisons =
        "comparisons lean to neither side, so a comparison under a comparison always \
                       stands in parentheses";
    assert!(why("(left < right) == wet").contains(comparisons));
    assert!(why("wet == (left < right)").contains(comparisons));
    assert!(why("a - (b - c)").contains("`-` leans left: "));
    assert!(why("a - (b + c)").contains("`-` leans left: "));
    assert!(why("(a = b) = c").contains("`=` leans right: "));
    assert!(why("(a += b) -= c").contains("`-=` leans right: "));
    // A level that is another's asks for the pair whatever the lean.
    for text in ["(a + b) * c", "(a = b) + c", "(a || b) == c", "(x as usize) < y", "(s.f)(x)"] {
        assert!(!why(text).contains(" lean"), "{text}");
    }
    // A range left of another's dots.
    let ranges = [0, 3, 27, 0, 0, 2, 0, 0, 27, 0, 0, 3, 0, 0, 26, 0, 0, 0, 0, 0];
    assert!(printed(&["why", "-"], &ranges, 0).contains("ranges lean to neither side"));
}

/// Drafts: pairs that stand whatever is chosen, those that depend with a choice for each, and
/// what is refused.
#[test]
fn drafts() {
    let draft = |text: &str| printed(&["draft", text], b"", 0);
    assert_eq!(
        draft("offset {+|-} (station - start)"),
        "offset {+|-} (station - start)\nno pair depends on what is chosen\n"
    );
    assert_eq!(
        draft("(left + right) {-|*} depth"),
        "(left + right) {-|*} depth\n\
         ?            ?\n\
         depends: the pair round node 2, `left + right`; with `*` it stands, with `-` not\n"
    );
    // A set that is no range, and operators above, below and beside each other.
    assert_eq!(
        draft("(a {+|<} b) {+..%} (c {*|<<} d) == e"),
        "(a {+|<} b) {+..%} (c {*|<<} d) == e\n\
         ?         ?        ?          ?\n\
         depends: the pair round node 3, `a {+|<} b`; with `+`, `*`, `*` it stands, with `+`, `+`, \
         `*` not\n\
         depends: the pair round node 6, `c {*|<<} d`; with `+`, `+`, `<<` it stands, with `+`, \
         `+`, `*` not\n"
    );
    assert_eq!(draft("a {+} b"), "a + b\nno pair depends on what is chosen\n");
    assert_eq!(
        printed(&["draft", "--condition"], b"x {==|&&} (S {})\n", 0),
        "x {&&|==} (S { .. })\nno pair depends on what is chosen\n"
    );
    let refused = |text: &str| printed(&["draft", text], b"", 1);
    let unlike = "sheet: what is read depends on the operator, `+` or `*`: parentheses must say \
                  which operands it has (line 1, column 7)";
    assert!(refused("a + b {+|*} c").starts_with(unlike));
    assert!(refused("a < b {==|+} c").contains("what is read depends on the operator"));
    assert!(refused("{-|*} a").contains("must stand between two operands"));
    assert!(refused("a {+|=} b").contains("other than `=`, must stand here (line 1, column 6)"));
    assert!(refused("a {-..+} b").starts_with("sheet: refused (22): "));
    assert!(refused("((a {+|-} b) {+|-} (c {+|-} d)) {+|-} e").starts_with("sheet: refused (20)"));
    assert!(refused("a {+|-} ").contains("the text ends where an operand must stand"));
    // What is wrong is shown in what was typed, braces and all.
    for (text, mark) in [("a {+|-} b c", 11), ("a {+|-}", 8), ("a {+|-} #", 9)] {
        let told = refused(text);
        let place = format!("(line 1, column {mark})\n  {text}\n  {:>mark$}\n", '^');
        assert!(told.ends_with(&place), "{told}");
    }
    assert_eq!(sheet(&["draft", "a", "b"], b"").status.code(), Some(2));
}

/// A second comparison is told from what has no reading for another reason.
#[test]
fn chains() {
    for (text, column) in [("a == b == c", 8), ("a < b < c", 7), ("f(a, b >= c + 1 != d)", 17)] {
        let message = printed(&["read", text], b"", 1);
        let meant =
            "sheet: refused (15): comparisons do not chain, so one of them needs parentheses";
        assert!(message.starts_with(&format!("{meant} (line 1, column {column})")), "{message}");
    }
    for text in ["a == == b", "a + < b", "x as T<A == b", "a b == c", "f(a,,) == b"] {
        assert!(!printed(&["read", text], b"", 1).contains("chain"), "{text}");
    }
}

/// An error names the rule and points at the place.
#[test]
fn errors_point() {
    for (text, mark) in [
        ("a < b < c", "        ^"),
        ("a + ", "     ^"),
        ("f(a, , b)", "       ^"),
        ("a b", "    ^"),
        ("a)", "   ^"),
        ("(a + b", "        ^"),
        ("x as T < y", "            ^"),
        ("x as T << y", "         ^"),
        ("a # b", "    ^"),
        ("a + if", "      ^"),
        ("", "  ^"),
        ("a = \"b", "      ^"),
        ("s.f::<T>()", "     ^"),
        ("f(,)", "    ^"),
        ("f(a,,)", "      ^"),
        ("(a,)", "    ^"),
        ("a[b,]", "     ^"),
        ("x as T<,>", "         ^"),
        ("f(a),", "      ^"),
        ("S { a }", "      ^"),
        ("x as T {}", "         ^"),
        ("S {} S {}", "         ^"),
    ] {
        let message = printed(&["read", text], b"", 1);
        let last = message.lines().last().unwrap_or_default();
        assert_eq!(last, mark, "{message}");
        assert_eq!(printed(&["read"], format!("{text}\n").as_bytes(), 1), message);
    }
}

/// Behind a comma a text can end before an item or before a bracket.
#[test]
fn ends_behind_a_comma() {
    for (text, message) in [
        ("f(a,", "the text ends before a bracket is closed"),
        ("x as T<A,", "the text ends within type arguments"),
        ("f(a, b +", "the text ends where an operand must stand"),
    ] {
        let printed = printed(&["read", text], b"", 1);
        assert!(printed.contains(message), "{printed}");
    }
}

#[test]
fn refusals() {
    let refused = |file: &[u8]| printed(&["check", "-"], file, 1);
    assert_eq!(
        refused(&[0, 3, 5, 0, 0, 2, 2, 0, 26, 0, 0, 0, 0, 0, 26, 0, 0, 0, 0, 0]),
        "sheet: refused (8) at node 2: An operand's number is not above its owner's or is above \
         the count, or a node is not owned exactly once.\n"
    );
    assert!(refused(&[0, 1, 5, 0, 28, 0, 0, 0]).starts_with("sheet: refused (6) at node 1: "));
    assert!(refused(&[0, 1, 6, 0, 0, 0, 0, 1]).starts_with("sheet: refused (6) at node 1: "));
    assert!(refused(&[0, 1, 5, 0, 0, 0, 0, 0]).starts_with("sheet: refused (7) at node 1: "));
    assert!(refused(&[0, 1, 5, 0]).starts_with("sheet: refused (5) at node 1, byte 4: "));
    assert!(refused(&[9, 1]).starts_with("sheet: refused (3) with context 9: "));
    assert!(refused(&[]).starts_with("sheet: refused (2) at byte 0: "));
    assert!(refused(&vec![0; 70_000]).starts_with("sheet: refused (1): "));
    let block = [0, 1, 6, 0, 0, 0, 0, 0];
    assert!(printed(&["tokens", "-"], &block, 1).starts_with("sheet: refused (13): "));
    assert_eq!(printed(&["check", "-"], &block, 0), "accepted: 1 nodes, context 0, not plain\n");
}

/// One file for one tree: numbered otherwise, in another context, and another tree.
#[test]
fn archive() {
    let sum = [0, 3, 5, 0, 0, 2, 3, 0, 26, 0, 0, 0, 0, 0, 20, 0, 0, 0, 0, 0];
    let turned = [0, 3, 5, 0, 0, 3, 2, 0, 20, 0, 0, 0, 0, 0, 26, 0, 0, 0, 0, 0];
    let statement = [&[1], &sum[1..]].concat();
    assert_eq!(sheet(&["canonical", "-"], &turned).stdout, sum);
    assert_eq!(sheet(&["canonical", "-"], &sum).stdout, sum);
    let folder = Scratch::new("archive");
    let inside = folder.0.join("inside");
    std::fs::create_dir_all(&inside).expect("a folder");
    let at = |name: &str| folder.0.join(name).to_str().expect("text").to_string();
    for (name, bytes) in [
        ("a", &sum[..]),
        ("b", &turned),
        ("c", &statement),
        ("d", &[0, 1, 26, 0, 0, 0, 0, 0]),
        ("inside/a", &sum),
    ] {
        std::fs::write(at(name), bytes).expect("a file");
    }
    assert_eq!(printed(&["compare", &at("a"), &at("b")], b"", 0), "before\n");
    assert_eq!(printed(&["compare", &at("b"), &at("a")], b"", 0), "after\n");
    assert_eq!(printed(&["compare", &at("a"), &at("inside/a")], b"", 0), "equal\n");
    assert_eq!(printed(&["compare", &at("c"), &at("d")], b"", 0), "after\n");
    let same = format!("{}\n{}\n{}\n", at("a"), at("b"), at("inside/a"));
    assert_eq!(printed(&["doubles", folder.name()], b"", 0), same);
    assert_eq!(printed(&["doubles", &at("c"), &at("d")], b"", 0), "no doubles\n");
    let two = format!("{}\n{}\n", at("a"), at("b"));
    let again = format!("{two}\n{}\n{}\n", at("d"), at("d"));
    assert_eq!(printed(&["doubles", &at("d"), &at("a"), &at("b"), &at("d")], b"", 0), again);
    // Refused files are told, and the others listed.
    std::fs::write(at("e"), [0, 1, 26]).expect("a file");
    let output = sheet(&["doubles", folder.name(), "/nowhere/at/all"], b"");
    assert_eq!(output.status.code(), Some(2));
    assert_eq!(String::from_utf8_lossy(&output.stdout), same);
    let message = String::from_utf8_lossy(&output.stderr).to_string();
    assert!(message.contains(&format!("{}: refused (5)", at("e"))), "{message}");
    assert!(message.contains("/nowhere/at/all"), "{message}");
    let refused = printed(&["compare", &at("a"), &at("e")], b"", 1);
    assert!(refused.starts_with(&format!("sheet: {}: refused (5)", at("e"))), "{refused}");
    let first = printed(&["compare", &at("e"), "-"], b"", 1);
    assert!(first.starts_with(&format!("sheet: {}: refused (5)", at("e"))), "{first}");
    let _ = std::fs::remove_dir_all(&folder.0);
}

/// Files packed for the store and put back, many at once; none is written over.
#[test]
fn packed() {
    let folder = Scratch::new("packed");
    std::fs::create_dir_all(folder.0.join("inside")).expect("a folder");
    let at = |name: &str| folder.0.join(name).to_str().expect("text").to_string();
    let read = |name: &str| std::fs::read(at(name)).expect("a file");
    let names = ["curve.tree", "turned", "inside/limit.tree"];
    let turned = [0, 3, 5, 0, 0, 3, 2, 0, 20, 0, 0, 0, 0, 0, 26, 0, 0, 0, 0, 0];
    let trees =
        [tree_of("offset - (station - start)"), turned.to_vec(), tree_of("f((a as T) < b, -c)")];
    for (name, tree) in names.iter().zip(&trees) {
        std::fs::write(at(name), tree).expect("a file");
    }
    assert_eq!(printed(&["pack", folder.name()], b"", 0), "packed 3 of 3\n");
    for (name, tree) in names.iter().zip(&trees) {
        let columns = at(&format!("{name}.columns"));
        assert_eq!(std::fs::read(&columns).ok(), tezhukor::to_columns(tree).ok());
        // A rearranged file stands for its tree by its name.
        let show = |file: &str| printed(&["show", file], b"", 0);
        assert_eq!(show(&columns), show(&at(name)));
        assert_eq!(printed(&["compare", &columns, &at(name)], b"", 0), "equal\n");
        assert_eq!(printed(&["doubles", &columns, &at(name)], b"", 0).lines().count(), 2);
        std::fs::remove_file(at(name)).expect("a file");
    }
    // Put back they have their own bytes, whatever numbers the nodes have.
    assert_eq!(printed(&["unpack", folder.name()], b"", 0), "unpacked 3 of 3\n");
    assert!(names.iter().zip(&trees).all(|(name, tree)| read(name) == *tree));
    assert_eq!(sheet(&["pack", "-"], &turned).stdout, read("turned.columns"));
    assert_eq!(sheet(&["unpack", "-"], &read("turned.columns")).stdout, turned);

    // What is there stays, and the others are packed.
    let [curve, limit] = [at("curve.tree"), at("inside/limit.tree")];
    std::fs::write(at("curve.tree.columns"), b"kept").expect("a file");
    std::fs::remove_file(at("inside/limit.tree.columns")).expect("a file");
    let output = sheet(&["pack", &curve, &limit], b"");
    assert_eq!(output.status.code(), Some(2));
    assert_eq!(String::from_utf8_lossy(&output.stdout), "packed 1 of 2\n");
    let told =
        format!("sheet: {curve}.columns: is there, and stays as it is; --overwrite replaces it\n");
    assert_eq!(String::from_utf8_lossy(&output.stderr), told);
    assert_eq!(read("curve.tree.columns"), b"kept");
    for option in [["--overwrite", &curve], [&curve, "--overwrite"]] {
        assert_eq!(printed(&["pack", option[0], option[1]], b"", 0), "packed 1 of 1\n");
        assert_eq!(sheet(&["unpack", "-"], &read("curve.tree.columns")).stdout, trees[0]);
    }
    // Nothing else is left.
    assert_eq!(std::fs::read_dir(&folder.0).expect("a folder").count(), 5);

    // A kind of file by its name, a refused file, and one that is not there.
    let no = printed(&["pack", &at("turned.columns")], b"", 2);
    assert!(no.ends_with("turned.columns: a rearranged file by its name\n"), "{no}");
    let no = printed(&["unpack", &at("turned")], b"", 2);
    assert!(no.ends_with("turned: no rearranged file by its name\n"), "{no}");
    std::fs::write(at("bad.columns"), [0, 1, 1, 0, 0, 0, 0, 0]).expect("a file");
    let no = printed(&["unpack", &at("bad.columns")], b"", 1);
    let outside = "bad.columns: refused (19) at node 1, form: A form or operand restored from \
                   the columns falls outside 0 to 65,535.\n";
    assert!(no.ends_with(outside), "{no}");
    assert!(!folder.0.join("bad").exists());
    let no = printed(&["pack", "/nowhere/at/all"], b"", 2);
    assert!(no.starts_with("sheet: /nowhere/at/all: "), "{no}");
    let _ = std::fs::remove_dir_all(&folder.0);
}

/// Where a rearranged file is wrong.
#[test]
fn refused_columns() {
    let place = |file: &[u8]| {
        let told = printed(&["unpack", "-"], file, 1);
        told.split(": ").nth(2).expect("a place").to_string()
    };
    // A call of a name, by columns.
    let columns = [0, 2, 16, 36, 0, 0, 0, 0, 1, 0, 0, 0, 0, 0];
    let with = |at: usize, bytes: &[u8]| [&columns[..at], bytes, &columns[at + 1..]].concat();
    assert_eq!(place(&[]), "refused (2) at byte 0");
    assert_eq!(place(&with(0, &[4])), "refused (3) with context 4");
    assert_eq!(place(&columns[..11]), "refused (5) at node 2, second operand, byte 11");
    assert_eq!(place(&with(13, &[0, 0])), "refused (5) behind the last node");
    assert_eq!(place(&with(3, &[17])), "refused (19) at node 2, form");
    assert_eq!(place(&with(8, &[0xFF, 0xFF, 3])), "refused (19) at node 1, first operand");
    assert_eq!(place(&with(5, &[3])), "refused (6) at node 2");
    assert_eq!(place(&with(8, &[0])), "refused (7) at node 1");
    assert_eq!(place(&with(8, &[2])), "refused (8) at node 1");
}

/// Edits a file, and shows what comes of it with the names that it then has.
fn edited(names: &Scratch, file: &[u8], node: &str, text: &str) -> (Vec<u8>, String) {
    let output = sheet(&["edit", "--names", names.name(), "-", node, text], file);
    let message = String::from_utf8_lossy(&output.stderr);
    assert_eq!(output.status.code(), Some(0), "{node} {text}: {message}");
    let shown = printed(&["show", "--names", names.name(), "-"], &output.stdout, 0);
    (output.stdout, shown.trim_end().to_string())
}

/// An operand is replaced by an expression, and the pairs are those of the result.
#[test]
fn edits() {
    let names = Scratch::new("edits");
    let text = "offset - (station - start)";
    let file = sheet(&["read", "--names", names.name(), text], b"").stdout;
    for (node, text, result) in [
        ("start", "depth", "offset - (station - depth)"),
        ("5", "depth * 2", "offset - (station - depth * 2)"),
        ("5", "depth - start", "offset - (station - (depth - start))"),
        ("station", "depth = start", "offset - ((depth = start) - start)"),
        ("station - start", "station", "offset - station"),
        ("station-start", "station", "offset - station"),
        ("(station - start)", "station", "offset - station"),
        ("offset - (station - start)", "start", "start"),
        ("1", "offset + 1", "offset + 1"),
        ("offset", "depth as usize", "depth as usize - (station - start)"),
    ] {
        let (edited, shown) = edited(&names, &file, node, text);
        assert_eq!(shown, result, "{node} {text}");
        // The file is the one of its tree.
        assert_eq!(sheet(&["canonical", "-"], &edited).stdout, edited);
    }
    // New names have new lines, behind those that were there.
    let lines = std::fs::read_to_string(&names.0).expect("names");
    assert_eq!(lines, "offset\nstation\nstart\ndepth\n2\n1\nusize\n");
}

/// A names file keeps all its lines, however long it is, or the edit is refused.
#[test]
fn long_names() {
    let names = Scratch::new("long");
    let file = tree_of("offset - station");
    let lines = |count: usize| (1..=count).map(|n| format!("{n:_>19}\n")).collect::<String>();
    let read = || std::fs::read_to_string(&names.0).expect("names");
    let edit = |text: &str, status: i32| {
        let output = sheet(&["edit", "--names", names.name(), "-", "3", text], &file);
        assert_eq!(output.status.code(), Some(status));
        String::from_utf8_lossy(&output.stderr).to_string()
    };
    let name = |n: usize| format!("{n:_>19}");
    // More than 1 MiB: a new name stands behind all others.
    std::fs::write(&names.0, lines(60_000)).expect("a file");
    edit(&format!("{} - depth", name(59_999)), 0);
    assert_eq!(read(), lines(60_000) + "depth\n");
    // More lines than there are symbols: names that are there are known, new ones are refused.
    std::fs::write(&names.0, lines(70_000)).expect("a file");
    edit(&format!("{} - {}", name(1), name(65_535)), 0);
    let told = edit("depth", 1);
    assert!(told.contains("more names and literals than the 65,535 symbols"), "{told}");
    assert_eq!(read(), lines(70_000));
    // More than 16 MiB.
    let long = "depth".repeat(4 << 20);
    std::fs::write(&names.0, &long).expect("a file");
    for command in ["edit", "preview"] {
        let words = [command, "--names", names.name(), "-", "3", "depth"];
        let told = format!("sheet: {}: is longer than 16777216 bytes\n", names.name());
        assert_eq!(printed(&words, &file, 1), told);
    }
    assert_eq!(read(), long);
    // What is no text is told at its place.
    let bytes = b"offset\nstati\xFFn\n";
    std::fs::write(&names.0, bytes).expect("a file");
    let told = format!("sheet: {}: is not UTF-8 at byte 12\n", names.name());
    for words in [
        &["edit", "--names", names.name(), "-", "3", "depth"][..],
        &["preview", "--names", names.name(), "-", "3", "depth"],
        &["show", "--names", names.name(), "-"],
        &["why", "--names", names.name(), "-"],
        &["page", "--names", names.name(), "-"],
    ] {
        assert_eq!(printed(words, &file, 1), told, "{words:?}");
    }
    assert_eq!(std::fs::read(&names.0).expect("names"), bytes);
}

/// A names file is replaced by a new one with its permissions; a link or a pipe is not.
#[cfg(unix)]
#[test]
fn replaced_names() {
    use std::os::unix::fs::{symlink, FileTypeExt, PermissionsExt};
    let [names, link, pipe] = ["replaced", "link", "pipe"].map(Scratch::new);
    let part = Scratch(format!("{}.part", names.name()).into());
    let file = sheet(&["read", "--names", names.name(), "offset - station"], b"").stdout;
    let read = || std::fs::read_to_string(&names.0).expect("names");
    let edit = |names: &Scratch, text: &str| {
        sheet(&["edit", "--names", names.name(), "-", "3", text], &file)
    };
    std::fs::set_permissions(&names.0, PermissionsExt::from_mode(0o660)).expect("a file");
    assert_eq!(edit(&names, "start").status.code(), Some(0));
    assert_eq!(read(), "offset\nstation\nstart\n");
    let mode = std::fs::metadata(&names.0).expect("names").permissions().mode();
    assert_eq!(mode & 0o777, 0o660);
    assert!(!part.0.exists());
    // Where the new one cannot be made all is as it was, and nothing is printed.
    std::fs::write(&part.0, b"kept").expect("a file");
    let output = edit(&names, "depth");
    assert_eq!((output.status.code(), &output.stdout[..]), (Some(2), &b""[..]));
    let told = format!("sheet: {0}: {0}.part is there, and must go first\n", names.name());
    assert_eq!(String::from_utf8_lossy(&output.stderr), told);
    assert_eq!(read(), "offset\nstation\nstart\n");
    assert_eq!(std::fs::read(&part.0).expect("a file"), b"kept");
    // What a link leads to has the lines, and the link stays; so does a pipe.
    symlink(&names.0, &link.0).expect("a link");
    assert_eq!(edit(&link, "grade").status.code(), Some(0));
    assert_eq!(read(), "offset\nstation\nstart\ngrade\n");
    assert!(std::fs::symlink_metadata(&link.0).expect("a link").is_symlink());
    let made = Command::new("mkfifo").arg(&pipe.0).status().expect("mkfifo runs");
    assert!(made.success());
    let place = pipe.0.clone();
    let reader = std::thread::spawn(move || std::fs::read_to_string(place).expect("lines"));
    let output = sheet(&["read", "--names", pipe.name(), "offset - station"], b"");
    assert_eq!(output.status.code(), Some(0));
    let kind = std::fs::symlink_metadata(&pipe.0).expect("a pipe").file_type();
    assert!(kind.is_fifo());
    assert_eq!(reader.join().expect("lines"), "offset\nstation\n");
}

/// Edits one after the other; a sheet keeps its context.
#[test]
fn edits_in_turn() {
    let names = Scratch::new("turn");
    let mut file = sheet(&["read", "--names", names.name(), "left < right"], b"").stdout;
    file[0] = 3;
    for (node, text, result) in [
        ("left", "depth as usize", "(depth as usize) < right"),
        ("depth as usize", "left + depth as usize", "left + (depth as usize) < right"),
        ("right", "left < depth", "left + (depth as usize) < (left < depth)"),
        ("7", "1", "left + (depth as usize) < 1"),
    ] {
        let shown;
        (file, shown) = edited(&names, &file, node, text);
        assert_eq!(shown, result);
        assert_eq!(file[0], 3);
    }
}

/// A struct is typed without a pair, which it has in a condition alone.
#[test]
fn structs_in_edits() {
    let names = Scratch::new("struct");
    for (options, result) in
        [(&["read", "--condition"][..], "x == (S { .. })"), (&["read"], "x == S { .. }")]
    {
        let words = [options, &["--names", names.name(), "x == y"]].concat();
        let file = sheet(&words, b"").stdout;
        assert_eq!(edited(&names, &file, "y", "Limit { .. }").1, result);
    }
}

/// Both texts, the pairs that come and go marked and in words; nothing is written.
#[test]
fn previews() {
    let names = Scratch::new("previews");
    let text = "ring.advance(offset - (station - start), depth)";
    let file = sheet(&["read", "--names", names.name(), text], b"").stdout;
    let lines = std::fs::read(&names.0).expect("names");
    let preview = |node: &str, text: &str| {
        printed(&["preview", "--names", names.name(), "-", node, text], &file, 0)
    };
    assert_eq!(
        preview("station - start", "station * grade"),
        "before  ring.advance(offset - (station - start), depth)\n\
         \x20                             -               -\n\
         after   ring.advance(offset - station * grade, depth)\n\
         goes: the pair round node 6, `station - start`, at columns 23 and 39 before\n"
    );
    assert_eq!(
        preview("ring", "-ring"),
        "before  ring.advance(offset - (station - start), depth)\n\
         after   (-ring).advance(offset - (station - start), depth)\n\
         \x20       +     +\n\
         comes: the pair round node 2, `-ring`, at columns 1 and 7 after\n"
    );
    // What is replaced and what replaces it have a pair, and within it another one.
    assert_eq!(
        preview("6", "a - (b - c)"),
        "before  ring.advance(offset - (station - start), depth)\n\
         after   ring.advance(offset - (a - (b - c)), depth)\n\
         \x20                                  +     +\n\
         comes: the pair round node 8, `b - c`, at columns 28 and 34 after\n"
    );
    let without = preview("start", "depth").lines().last().map(str::to_string);
    assert_eq!(without.as_deref(), Some("no pair comes or goes"));
    // The cast has a pair, and so has the comparison in its place.
    let file = sheet(&["read", "--names", names.name(), "(a as T) < b"], b"").stdout;
    let told = printed(&["preview", "--names", names.name(), "-", "a as T", "a == b"], &file, 0);
    assert!(told.ends_with("after   (a == b) < b\nno pair comes or goes\n"), "{told}");
    std::fs::write(&names.0, &lines).expect("a file");
    let refused = printed(&["preview", "--names", names.name(), "-", "4", "new"], &file, 1);
    assert!(refused.starts_with("sheet: refused (17) at node 4, a path type: "), "{refused}");
    assert_eq!(std::fs::read(&names.0).expect("names"), lines);
}

/// In a statement a pair goes beside the place that is edited.
#[test]
fn previews_beside_the_edit() {
    // (a = b) .. with a range for b.
    let name = |symbol| [26, 0, 0, 0, 0, symbol];
    let [range, assign] = [[27, 0, 0, 2, 0, 0], [2, 0, 0, 3, 4, 0]];
    let sheet = [&[1, 4][..], &range, &assign, &name(1), &name(2)].concat();
    let second = [&[0, 2][..], &[27, 0, 0, 0, 2, 0], &name(3)].concat();
    let sheet = OpenSheet::load(&sheet).expect("a sheet");
    let second = Tree::load(&second).expect("a tree");
    let sight = sheet.preview(4, &second).expect("an edit").sight(&Names::default());
    assert_eq!(sight.before.as_str(), "(a = b)..");
    assert_eq!(sight.after.as_str(), "a = ..c..");
    assert_eq!((sight.go.len(), sight.come.len()), (1, 0));
    assert_eq!((sight.go[0].open, sight.go[0].close), (0, 6));
}

/// Without a names file names are the letters shown.
#[test]
fn edits_by_letters() {
    let file = tree_of("offset - (station - start)");
    let edited = |node, text| {
        let output = sheet(&["edit", "-", node, text], &file);
        assert_eq!(output.status.code(), Some(0));
        printed(&["show", "-"], &output.stdout, 0).trim_end().to_string()
    };
    assert_eq!(edited("c", "a"), "a - (b - a)");
    assert_eq!(edited("b - c", "new + b"), "a - (d + b)");
}

/// A refused edit is told with its node and the reason, and nothing is written.
#[test]
fn refused_edits() {
    let names = Scratch::new("refused");
    let text = "a.f(a as T, b + b)";
    let file = sheet(&["read", "--names", names.name(), text], b"").stdout;
    let lines = std::fs::read(&names.0).expect("names");
    let refused = |node: &str, text: &str| {
        printed(&["edit", "--names", names.name(), "-", node, text], &file, 1)
    };
    for (node, text, message) in [
        ("0", "new", "refused (17) at node 0 of 10: The named node is absent"),
        ("11", "new", "refused (17) at node 11 of 10: "),
        ("65535", "new", "refused (17) at node 65535 of 10: "),
        ("3", "new", "refused (17) at node 3, a list link: "),
        ("6", "new", "refused (17) at node 6, a path type: "),
        ("b", "new", "`b` stands at the nodes 9, 10: name a node by its number"),
        ("new", "a", "no operand of the sheet is `new`: name a node by its number"),
        ("T", "new", "no operand of the sheet is `T`"),
        ("4", "new +", "refused (15): the text ends where an operand must stand"),
    ] {
        let told = refused(node, text);
        assert!(told.starts_with(&format!("sheet: {message}")), "{told}");
    }
    assert_eq!(std::fs::read(&names.0).expect("names"), lines);
}

/// What would give no tree is refused for one of three reasons.
#[test]
fn edits_without_a_result() {
    // |..| -> .. { .. }
    let closure = [0, 2, 10, 0, 1, 2, 0, 0, 6, 0, 0, 0, 0, 0];
    let told = printed(&["edit", "-", "2", "a"], &closure, 1);
    let reason = "the body of node 1, a closure with a written output";
    assert!(told.starts_with(&format!("sheet: refused (18) at node 2, {reason}: ")), "{told}");
    assert_eq!(sheet(&["edit", "-", "1", "a"], &closure).status.code(), Some(0));
    let signs = |signs: usize| "-".repeat(signs) + "a";
    let file = tree_of(&signs(100));
    let told = printed(&["edit", "-", "a", &signs(28)], &file, 1);
    let reason = "which would give a path of 129 nodes";
    assert!(told.starts_with(&format!("sheet: refused (18) at node 101, {reason}: ")), "{told}");
    assert_eq!(sheet(&["edit", "-", "a", &signs(27)], &file).status.code(), Some(0));
    // A call of n arguments has 2 n + 2 nodes.
    let call = |arguments: usize| format!("f({})", vec!["1"; arguments].join(", "));
    let file = tree_of(&call(2_000));
    let told = printed(&["edit", "-", "2", &call(47)], &file, 1);
    let reason = "which would give 4097 nodes";
    assert!(told.starts_with(&format!("sheet: refused (18) at node 2, {reason}: ")), "{told}");
    assert_eq!(sheet(&["edit", "-", "1", &call(2_046)], &file).status.code(), Some(0));
}

#[test]
fn usage() {
    let usage = printed(&["help"], b"", 0);
    for arguments in [
        &[][..],
        &["rows"],
        &["sow", "x"],
        &["rows", "a", "b"],
        &["canonical"],
        &["compare", "a"],
        &["doubles"],
        &["pack"],
        &["unpack", "--overwrite"],
        &["edit", "a", "1"],
        &["preview", "a", "1", "b", "c"],
        &["edit", "--names", "a", "1", "b"],
        &["--names"],
        &["show", "--names"],
        &["rows", "--names", "a", "b"],
        &["read", "--condition", "--condition", "a"],
        &["read", "--names", "a", "--names", "b", "c"],
        &["read", "--condition", "a", "b"],
        &["read", "a", "--condition"],
        &["show", "--condition", "a"],
        &["why", "--count", "a"],
    ] {
        assert_eq!(printed(arguments, b"", 2), usage);
    }
    assert!(printed(&["rows", "/nowhere/at/all"], b"", 2).starts_with("sheet: /nowhere"));
    assert!(printed(&["read", "--names", "/nowhere/at/all", "a"], b"", 2).contains("/nowhere"));
}

/// Pseudo-random numbers.
fn next(state: &mut u64) -> usize {
    *state = state.wrapping_mul(6_364_136_223_846_793_005).wrapping_add(1_442_695_040_888_963_407);
    (*state >> 33) as usize
}

const OPERANDS: [&str; 16] = [
    "a",
    "-b",
    "f(x)",
    "f(x,)",
    "s.f",
    "s.0",
    "(a+b)",
    "&x",
    "1",
    "1.5",
    "x as T",
    "x as T<A,>",
    "v[i]?",
    "x.await",
    "S {}",
    "(S { .. })",
];

const PIECES: [&str; 44] = [
    "a", "+", "f", "T", "1", "0", "1.5", "2e-", "'x'", "\"s", "_", "as", "await", ".", ".0", "(",
    ")", "[", "]", "<", ">", ">>", "<<", "&&", "&mut", "&", "*", "*const", "-", "!", "!=", "=",
    "==", "+=", ",", "?", "::", "é", "\u{0}", "\n", "S {}", "{", "}", "{ .. }",
];

/// A text: operands and operators in turn, or any pieces.
fn text(state: &mut u64, index: u64) -> String {
    let length = next(state) % 20;
    let words = (0..length).map(|at| match (index % 3, at % 2) {
        (0, 0) => OPERANDS[next(state) % OPERANDS.len()],
        (0, _) => ["+", "-", "*", "&&", "<<", "|"][next(state) % 6],
        _ => PIECES[next(state) % PIECES.len()],
    });
    words.collect::<Vec<_>>().join([" ", ""][index as usize % 2])
}

/// Nothing that is given makes it panic or end by a signal: the status is 0, 1 or 2.
#[test]
fn no_input_breaks_it() {
    let times = std::env::var("TEZHUKOR_FUZZ").ok().and_then(|times| times.parse().ok());
    let (mut state, mut statuses) = (1, [0; 3]);
    let mut file = tree_of("offset - (station - start)");
    for index in 0..times.unwrap_or(2_000u64) / 10 {
        let text = text(&mut state, index);
        let options = [&["read"][..], &["read", "--condition"]][index as usize / 2 % 2];
        let read = sheet(options, text.as_bytes());
        if read.status.code() == Some(0) {
            file = read.stdout.clone();
        }
        let mut bytes = file.clone();
        if index % 4 != 0 {
            let at = next(&mut state) % bytes.len();
            bytes[at] = (next(&mut state) % 60) as u8;
        }
        let command = ["show", "why", "rows", "tokens", "check"][index as usize % 5];
        for output in [read, sheet(&[command, "-"], &bytes)] {
            let status = output.status.code().filter(|status| (0..=2).contains(status));
            let status = status.unwrap_or_else(|| panic!("{output:?} for {text:?} {bytes:?}"));
            statuses[status as usize] += 1;
        }
    }
    println!("sheet ran: done {}, refused {}, usage {}", statuses[0], statuses[1], statuses[2]);
}

/// Nor does any node or expression of an edit.
#[test]
fn no_edit_breaks_it() {
    let times = std::env::var("TEZHUKOR_FUZZ").ok().and_then(|times| times.parse().ok());
    let (mut state, mut statuses) = (2, [0; 3]);
    let mut file = tree_of("offset - (station - start)");
    for index in 0..times.unwrap_or(2_000u64) / 20 {
        let node = match index % 4 {
            0 => text(&mut state, 0),
            _ => (next(&mut state) % 12).to_string(),
        };
        let text = text(&mut state, 3 * index);
        let [edit, preview] =
            ["edit", "preview"].map(|command| sheet(&[command, "-", &node, &text], &file));
        assert_eq!(edit.status.code(), preview.status.code(), "{node} {text}");
        assert_eq!(edit.stderr, preview.stderr);
        let status = edit.status.code().filter(|status| (0..=2).contains(status));
        let status = status.unwrap_or_else(|| panic!("{edit:?} for {node:?} {text:?}"));
        statuses[status as usize] += 1;
        if status == 0 {
            file = edit.stdout;
        }
    }
    println!("sheet edited: done {}, refused {}", statuses[0], statuses[1]);
}

/// The longest texts, and bytes that are no text.
#[test]
fn no_length_breaks_it() {
    assert_eq!(sheet(&["read"], &[0xFF, 0xFE]).status.code(), Some(1));
    assert_eq!(sheet(&["read"], &vec![b'('; 24_576]).status.code(), Some(1));
    assert_eq!(sheet(&["read"], &vec![b'-'; 2_000_000]).status.code(), Some(1));
    assert_eq!(sheet(&["read"], "a+".repeat(12_000).as_bytes()).status.code(), Some(1));
}
