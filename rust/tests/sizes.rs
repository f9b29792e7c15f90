//! The numbers of `sizes`, held against whatever else states them: the C header, the
//! sentences of refusals, and definitions of the same names in `crates/`.

use std::collections::HashMap;
use std::path::{Path, PathBuf};
use tezhukor::sizes::*;
use tezhukor::{codes, contexts, Answer, CalleeOrder, Refusal};

/// The numbers by name.
const SIZES: [(&str, usize); 18] = [
    ("NODE_CELLS", NODE_CELLS),
    ("NODE_BYTES", NODE_BYTES),
    ("MOST_SYMBOL", MOST_SYMBOL as usize),
    ("ROW_CELLS", ROW_CELLS),
    ("TOKEN_CELLS", TOKEN_CELLS),
    ("TOKENS_PER_NODE", TOKENS_PER_NODE),
    ("TOKEN_CELLS_PER_NODE", TOKEN_CELLS_PER_NODE),
    ("MOST_NODES", MOST_NODES),
    ("MOST_TOKENS", MOST_TOKENS),
    ("MOST_LEVELS", MOST_LEVELS),
    ("MOST_FILE_BYTES", MOST_FILE_BYTES),
    ("LAST_CODE", LAST_CODE as usize),
    ("MOST_CELLS", MOST_CELLS),
    ("LAST_OPERATOR", LAST_OPERATOR as usize),
    ("NO_OPERATOR", NO_OPERATOR as usize),
    ("LEVEL_UNIT", LEVEL_UNIT as usize),
    ("MOST_ENTRIES", MOST_ENTRIES),
    ("ENTRY_CELLS", ENTRY_CELLS),
];

fn root() -> PathBuf {
    Path::new(env!("CARGO_MANIFEST_DIR")).join("..")
}

/// A number as it is written in Rust, Rattle, antt and C.
fn number(text: &str) -> Option<usize> {
    text.trim_end_matches(';').replace('_', "").parse().ok()
}

/// A name as specs spell it: NODE_CELLS is node_cells.
fn in_specs(name: &str) -> String {
    name.to_lowercase()
}

/// The name and the number that a line defines: `NAME = NUMBER` in specs, `const NAME:
/// TYPE = NUMBER;` in code.
fn defined(line: &str) -> Option<(&str, usize)> {
    let words: Vec<&str> = line.split_whitespace().filter(|word| *word != "pub").collect();
    match words[..] {
        [name, "=", value] | ["const", name, _, "=", value] => {
            Some((name.trim_end_matches(':'), number(value)?))
        }
        _ => None,
    }
}

/// All files below a folder with that ending, but for what is built.
fn files(folder: &Path, ending: &str) -> Vec<PathBuf> {
    let entries = std::fs::read_dir(folder).into_iter().flatten().flatten();
    let found = entries.flat_map(|entry| match entry.path() {
        path if path.ends_with("out") => vec![],
        path if path.is_dir() => files(&path, ending),
        path if path.extension().is_some_and(|found| found == ending) => vec![path],
        _ => vec![],
    });
    found.collect()
}

/// Where `crates/` defines one of the names, it is that number, and it does so once.
#[test]
fn crates_agree() {
    for (part, ending) in [("specs", "antt"), ("src", "rt")] {
        let mut times: HashMap<&str, usize> = HashMap::new();
        for path in files(&root().join("crates"), ending) {
            if !path.components().any(|folder| folder.as_os_str() == part) {
                continue;
            }
            let text = std::fs::read_to_string(&path).expect("a readable file");
            for (found, value) in text.lines().filter_map(defined) {
                let same = |(name, _): &&(&str, usize)| *name == found || in_specs(name) == found;
                if let Some((name, size)) = SIZES.iter().find(same) {
                    assert_eq!(value, *size, "{found} in {}", path.display());
                    *times.entry(name).or_default() += 1;
                    assert_eq!(times[name], 1, "{found} again in {}", path.display());
                }
            }
        }
        println!("{part} define {} of {} numbers", times.len(), SIZES.len());
    }
}

#[test]
fn the_header_agrees() {
    let path = root().join("rust/include/tezhukor.h");
    let text = std::fs::read_to_string(path).expect("the header");
    let mut defined: Vec<(&str, usize)> = text
        .lines()
        .filter_map(|line| {
            let (name, value) = line.strip_prefix("#define TEZHUKOR_")?.split_once(' ')?;
            Some((name, number(value)?))
        })
        .collect();
    defined.sort();
    let names: Vec<&str> = defined.iter().map(|found| found.0).collect();
    let meant = [
        "ENTRY_CELLS",
        "MOST_ENTRIES",
        "MOST_NODES",
        "MOST_TOKENS",
        "NODE_CELLS",
        "NO_OPERATOR",
        "ROW_CELLS",
        "TOKENS_PER_NODE",
        "TOKEN_CELLS",
    ];
    assert_eq!(names, meant);
    assert!(defined.iter().all(|found| SIZES.contains(found)), "{defined:?}");
}

/// The contexts of the header are those of `contexts`, its callee orders those of
/// [`CalleeOrder`], and its answers those of [`Answer`].
#[test]
fn numbers_with_names_agree() {
    let path = root().join("rust/include/tezhukor.h");
    let text = std::fs::read_to_string(path).expect("the header");
    let context = |line: &str| {
        let line = line.strip_prefix("    TEZHUKOR_")?;
        let (name, value) = line.trim_end_matches(',').split_once(" = ")?;
        Some((name.to_string(), number(value)?))
    };
    let named: Vec<(String, usize)> = text.lines().filter_map(context).collect();
    let meant = [
        ("NONE", contexts::NONE),
        ("STATEMENT", contexts::STATEMENT),
        ("MATCH_ARM", contexts::MATCH_ARM),
        ("CONDITION", contexts::CONDITION),
        ("CRATES_ORDER", CalleeOrder::Crate.number()),
        ("OUR_ORDER", CalleeOrder::Ours.number()),
        ("NEVER", Answer::Never.number()),
        ("ALWAYS", Answer::Always.number()),
        ("DEPENDS", Answer::Depends.number()),
    ];
    assert_eq!(named, meant.map(|(name, number)| (name.to_string(), number.into())));
    assert_eq!(contexts::CONDITION, LAST_CONTEXT);
}

/// The sentences name the numbers, with commas between thousands.
#[test]
fn sentences_agree() {
    let spelled = |number: usize| match number {
        0..=999 => number.to_string(),
        _ => format!("{},{:03}", number / 1_000, number % 1_000),
    };
    for (refusal, number) in [
        (Refusal::FileTooLong, MOST_FILE_BYTES),
        (Refusal::Context, LAST_CONTEXT.into()),
        (Refusal::Count, MOST_NODES),
        (Refusal::Depth, MOST_LEVELS),
        (Refusal::Tokens, MOST_TOKENS),
        (Refusal::Tokens, LAST_CODE.into()),
        (Refusal::NotPlain, contexts::NONE.into()),
        (Refusal::NotPlain, contexts::CONDITION.into()),
        (Refusal::ReadingTooLarge, MOST_NODES),
        (Refusal::ReadingTooLarge, MOST_LEVELS),
        (Refusal::EditedTree, MOST_NODES),
        (Refusal::EditedTree, MOST_LEVELS),
        (Refusal::OpenRange, LAST_BINARY.into()),
    ] {
        assert!(refusal.sentence().contains(&spelled(number)), "{number}: {refusal}");
    }
    assert_eq!(MOST_TOKENS, TOKENS_PER_NODE * MOST_NODES);
    assert_eq!(codes::SPELLED.len(), usize::from(LAST_CODE) + 1);
    assert_eq!(Refusal::numbered(LAST_REFUSAL), Some(Refusal::OpenRange));
    assert_eq!(Refusal::Entries.sentence().split(' ').nth(2), Some("three"));
    assert_eq!(MOST_ENTRIES, 3);
    assert_eq!(Refusal::numbered(LAST_REFUSAL + 1), None);
}
