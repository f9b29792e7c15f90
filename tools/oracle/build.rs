//! Takes prettyplease's files and puts the recording lines into expr.rs, and our test of a
//! callee beside the crate's.
//!
//! The files lie in `shared/docs/src/src` beside the repository's root folder;
//! PRETTYPLEASE_SRC names another folder. None of their text is kept here but
//! what it takes to find a place.
//!
//! With ORACLE_MUTANT=FILE:N the Nth change of src/mutation.rs is made to FILE.
//! With the feature kept_scans fixup.rs's scan_right gets another name, and
//! src/fixup/kept.rs stands in its place.

#[path = "src/mutation.rs"]
#[allow(dead_code)]
mod mutation;

use std::path::Path;
use std::{env, fs};

/// Recording lines of expr.rs. Each goes behind the first opening brace after a
/// text that occurs once, the head of a function.
const RECORDING_LINES: [(&str, &str); 5] = [
    ("fn expr(", "self.entered(expr, false, fixup);"),
    ("fn expr_beginning_of_line(", "self.entered(expr, needs_paren, fixup);"),
    ("fn prefix_subexpr(", "self.entered(expr, needs_paren, fixup);"),
    ("fn subexpr(", "self.entered(expr, needs_paren, fixup);"),
    ("&TokenStream, _fixup:", "self.verbatim();"),
];

/// The two functions of expr.rs that print a Call.
const CALLS: [&str; 2] = ["fn expr_call(", "fn prefix_subexpr_call("];

/// How the test of a callee begins there, and what stands before it for our order (document
/// 02, Paper 9). In the crate's order its own text decides, as it is.
const TEST: [&str; 2] = ["let needs_paren = ", "if let Expr::Field("];
const OUR_TEST: &str = "if self.order == model::CalleeOrder::Ours {
            left_prec < Precedence::Unambiguous || crate::stand_in::callee::is_named_field(&expr.func)
        } else ";

fn main() {
    println!("cargo:rerun-if-changed=build.rs");
    println!("cargo:rerun-if-changed=src/mutation.rs");
    println!("cargo:rerun-if-env-changed=PRETTYPLEASE_SRC");
    println!("cargo:rerun-if-env-changed=ORACLE_MUTANT");
    let mutant = env::var("ORACLE_MUTANT").ok();
    let out = env::var("OUT_DIR").expect("cargo gives OUT_DIR");
    let here = env::var("CARGO_MANIFEST_DIR").expect("cargo gives CARGO_MANIFEST_DIR");
    let folder = mutation::source_folder(&here);
    for file in mutation::FILES {
        let path = folder.join(format!("{file}.rs.txt"));
        println!("cargo:rerun-if-changed={}", path.display());
        let mut text = mutation::source(&folder, file);
        if let Some(number) = mutant.as_deref().and_then(|mutant| mutation::number(mutant, file)) {
            text = mutation::mutants(file, &text)[number].apply(&text);
        }
        if file == "expr" {
            for (place, line) in RECORDING_LINES {
                text = with_line(&text, place, line);
            }
            for call in CALLS {
                text = with_our_test(&text, call);
            }
        }
        if file == "fixup" && env::var_os("CARGO_FEATURE_KEPT_SCANS").is_some() {
            assert_once(&text, "fn scan_right(");
            text = text.replace("fn scan_right(", "fn scan_anew(");
        }
        fs::write(Path::new(&out).join(format!("{file}.rs")), text).expect("a writable OUT_DIR");
    }
}

/// The text with a line behind the first opening brace after a place.
fn with_line(text: &str, place: &str, line: &str) -> String {
    assert_once(text, place);
    let head = text.find(place).expect("found just now");
    let at = head + text[head..].find('{').expect("the body of a function") + 1;
    format!("{}\n        {line}{}", &text[..at], &text[at..])
}

/// The text with our test before the crate's in one of the functions that print a Call.
fn with_our_test(text: &str, call: &str) -> String {
    assert_once(text, call);
    let start = text.find(call).expect("found just now");
    let end = text[start..].find("\n    fn ").map_or(text.len(), |length| start + length);
    let test = TEST.concat();
    assert_once(&text[start..end], &test);
    let at = start + text[start..end].find(&test).expect("found just now") + TEST[0].len();
    format!("{}{OUR_TEST}{}", &text[..at], &text[at..])
}

fn assert_once(text: &str, place: &str) {
    let times = text.matches(place).count();
    assert!(times == 1, "expected once in prettyplease's file, found {times} times: {place}");
}
