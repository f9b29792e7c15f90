//! `sheet page`: what the page holds. `tools/page_test` looks at it in a browser.

use std::io::Write;
use std::process::{Command, Output, Stdio};
use tezhukor::build::{binary, call, path, Context, Expr, Op};

/// Runs `sheet` with arguments and bytes on its standard input.
fn sheet(arguments: &[&str], input: &[u8]) -> Output {
    let mut command = Command::new(env!("CARGO_BIN_EXE_sheet"));
    command.args(arguments).stdin(Stdio::piped()).stdout(Stdio::piped()).stderr(Stdio::piped());
    let mut child = command.spawn().expect("sheet runs");
    let _ = child.stdin.take().expect("its input").write_all(input);
    child.wait_with_output().expect("it ends")
}

fn page(arguments: &[&str], input: &[u8], status: i32) -> String {
    let output = sheet(&[&["page"], arguments].concat(), input);
    assert_eq!(output.status.code(), Some(status), "{arguments:?}");
    let page = String::from_utf8(output.stdout).expect("text");
    // Nothing is asked for from elsewhere.
    let without_namespace = page.replace("xmlns=\"http://www.w3.org/2000/svg\"", "");
    for word in ["http:", "https:", " src=", "url(", "@import", "<link rel=\"style", "fetch("] {
        assert!(!without_namespace.contains(word), "{word}");
    }
    assert!(page.starts_with("<!doctype html>") && page.ends_with("</html>\n"));
    page
}

fn file(expr: Expr, context: Context) -> Vec<u8> {
    expr.tree(context).expect("a tree").to_file()
}

/// a - (b - (c - d))
fn nested() -> Expr {
    let [a, b, c, d] = [1, 2, 3, 4].map(path);
    binary(Op::Sub, a, binary(Op::Sub, b, binary(Op::Sub, c, d)))
}

#[test]
fn pairs_and_their_reasons() {
    let page = page(&["-"], &file(nested(), Context::None), 0);
    assert!(page.contains("<h1>A sheet of 7 nodes</h1>"));
    assert!(page.contains("<title>a - (b - (c - d))</title>"));
    assert_eq!(page.matches("<button type=\"button\" class=\"pair\"").count(), 2);
    for (at, node, reads) in [(0, 3, "(a - b) - (c - d)"), (1, 5, "a - ((b - c) - d)")] {
        assert!(page.contains(&format!("data-pair=\"{at}\" data-node=\"{node}\"")));
        assert!(page.contains(&format!("<div class=\"reason\" id=\"reason-{at}\" hidden>")));
        assert!(page.contains(&format!("which reads {reads}</p>")));
        assert!(page.contains(&format!("<g id=\"node-{node}\" class=\"node paired\">")));
    }
    assert_eq!(page.matches("<g id=\"node-").count(), 7);
    assert_eq!(page.matches("who asks").count(), 0);
}

#[test]
fn no_pairs_and_no_tokens() {
    let plain = page(&["-"], &file(call(path(1), [path(2)]), Context::None), 0);
    assert!(plain.contains("No pair was added: none is needed."));
    assert!(!plain.contains("<button"));
    // A match that begins a statement, left of `+`.
    let statement = file(binary(Op::Add, tezhukor::build::match_(), path(1)), Context::Statement);
    let page = page(&["-"], &statement, 0);
    assert!(page.contains("<h1>A sheet of 3 nodes, at the start of a statement</h1>"));
    assert!(page.contains("parenthesize asks for it: part 1"));
}

#[test]
fn edits_before_and_after() {
    let sheet = file(nested(), Context::None);
    let page = page(&["--preview", "c - d", "c * d", "-"], &sheet, 0);
    assert!(page.contains("goes: the pair round node 5, `c - d`, at columns 10 and 16 before"));
    assert_eq!(page.matches("class=\"pair goes\"").count(), 2);
    // Only the pairs of the text after it can be chosen.
    assert_eq!(page.matches("data-pair=\"0\"").count(), 2);
    assert!(page.contains("<title>a - (b - c * d)</title>"));
    let message = sheet_message(&["page", "--preview", "9", "x", "-"], &sheet);
    assert!(message.starts_with("sheet: refused (17) at node 9 of 7"), "{message}");
}

fn sheet_message(arguments: &[&str], input: &[u8]) -> String {
    let output = sheet(arguments, input);
    assert_ne!(output.status.code(), Some(0));
    String::from_utf8(output.stderr).expect("text")
}

#[test]
fn drafts() {
    let page_of = |text: &str| page(&["--draft", text], b"", 0);
    let page = page_of("(offset {+|-} lead) {-|*} (station - start)");
    assert!(page.contains("<title>(offset {+|-} lead) {-|*} (station - start)</title>"));
    assert!(page.contains("<h1>A draft of 7 nodes</h1>"));
    for (at, class, node) in [(0, "pair depends", 2), (1, "pair", 5)] {
        let open = format!("class=\"{class}\" data-pair=\"{at}\" data-node=\"{node}\"");
        assert_eq!(page.matches(&open).count(), 1, "{open}");
        let close = format!("<span class=\"{class}\" data-pair=\"{at}\">)</span>");
        assert_eq!(page.matches(&close).count(), 1, "{close}");
    }
    assert_eq!(page.matches("<span class=\"open\">{+|-}</span>").count(), 1);
    for line in [
        "(offset {+|-} lead) depends on what is chosen",
        "with `+`, `*` it stands; without it: offset + lead * (station - start), which reads \
         offset + (lead * (station - start))",
        "with `+`, `-` it is not needed: offset + lead - (station - start)",
        "(station - start) stands, whatever is chosen",
        "with `+`, `-`, without it: offset + lead - station - start, which reads \
         (offset + lead - station) - start",
    ] {
        assert_eq!(page.matches(&format!("<p class=\"text\">{line}</p>")).count(), 1, "{line}");
    }
    // The nodes of open operators and of pairs.
    assert!(page.contains("<title>node 1, Binary `{-|*}`</title>"));
    assert!(page.contains("<g id=\"node-2\" class=\"node depends\"><title>node 2, Binary `{+|-}`"));
    assert!(page.contains("<g id=\"node-5\" class=\"node paired\">"));
    assert!(page_of("a {+|-} b").contains("No pair is needed, whatever is chosen."));
    assert!(page_of("a {+|-} (b - c)").contains("No pair depends on what is chosen."));
    // A struct that depends, in a condition; the draft comes from standard input.
    let condition = sheet(&["page", "--draft", "--condition"], b"(a {<|+} b) {+|==} (S { .. })");
    let condition = String::from_utf8(condition.stdout).expect("text");
    assert!(condition.contains("<h1>A draft of 5 nodes, as a condition</h1>"));
    assert_eq!(condition.matches("<button ").count(), 2);
    let message = sheet_message(&["page", "--draft", "a + b {+|*} c"], b"");
    assert!(message.contains("what is read depends on the operator, `+` or `*`"), "{message}");
}

#[test]
fn refused_files() {
    // Node 2 owns itself.
    let page = page(&["-"], &[0, 2, 33, 0, 0, 2, 0, 0, 33, 0, 0, 2, 0, 0], 1);
    assert!(page.contains("refused (8) at node 2: An operand&#39;s number is not above"));
    assert!(page.contains("<tr class=\"marked\"><td>2</td><td class=\"name\">Try</td>"));
    assert_eq!(page.matches("class=\"marked\"").count(), 1);
}

#[test]
fn rearranged_files() {
    let name = format!("tezhukor-{}-page.tree.columns", std::process::id());
    let path = std::env::temp_dir().join(name);
    let page_of = |bytes: &[u8], status| {
        std::fs::write(&path, bytes).expect("a file");
        page(&[path.to_str().expect("text")], b"", status)
    };
    let columns = tezhukor::to_columns(&file(nested(), Context::None)).expect("a sheet");
    assert!(page_of(&columns, 0).contains("<title>a - (b - (c - d))</title>"));
    // Node 2 is a Try without an operand; a form below 0; the first number of a node.
    let page = page_of(&[0, 2, 66, 0, 0, 0, 0, 0, 1, 0, 0, 0, 0, 0], 1);
    assert!(page.contains("<tr class=\"marked\"><td>2</td><td class=\"name\">Try</td>"), "{page}");
    for bytes in [&[0, 1, 1, 0, 0, 0, 0, 0][..], &[0, 1, 52]] {
        let page = page_of(bytes, 1);
        assert!(page.contains("<h1>No sheet</h1>") && !page.contains("<table>"), "{page}");
    }
    std::fs::remove_file(&path).expect("the file goes");
}

#[test]
fn usage() {
    for wrong in [
        &["page"][..],
        &["page", "--names", "n"],
        &["page", "--preview", "1", "a"],
        &["page", "--draft", "a", "b"],
        &["page", "--names", "n", "--draft", "a"],
    ] {
        assert!(sheet_message(wrong, b"").starts_with("sheet: where"), "{wrong:?}");
    }
}
