//! The documents: links lead somewhere, and what they show is what the command prints.

use std::collections::{BTreeMap, HashSet};
use std::path::{Path, PathBuf};
use std::process::Command;

fn root() -> PathBuf {
    Path::new(env!("CARGO_MANIFEST_DIR")).join("..")
}

fn text(file: &Path) -> String {
    std::fs::read_to_string(file).unwrap_or_else(|error| panic!("{}: {error}", file.display()))
}

/// The documents of the root, of docs/ and of the tools.
fn documents() -> Vec<PathBuf> {
    let root = root();
    let tools = std::fs::read_dir(root.join("tools")).expect("the tools");
    let folders = tools.map(|entry| entry.expect("a file").path()).filter(|path| path.is_dir());
    let folders = [root.clone(), root.join("docs")].into_iter().chain(folders);
    let files = folders.flat_map(|folder| std::fs::read_dir(folder).expect("a folder"));
    let files = files.map(|entry| entry.expect("a file").path());
    files.filter(|file| file.extension().is_some_and(|ending| ending == "md")).collect()
}

/// The lines of a document: those of its text, and its blocks of code.
fn parts(document: &str) -> (Vec<&str>, Vec<Vec<&str>>) {
    let (mut words, mut blocks, mut block) = (Vec::new(), Vec::new(), None);
    for line in document.lines() {
        block = match (block.take(), line.starts_with("```")) {
            (None, true) => Some(Vec::new()),
            (None, false) => {
                words.push(line);
                None
            }
            (Some(lines), true) => {
                blocks.push(lines);
                None
            }
            (Some(mut lines), false) => {
                lines.push(line);
                Some(lines)
            }
        };
    }
    (words, blocks)
}

/// A heading as links name it.
fn anchor(heading: &str) -> String {
    let kept = heading.trim_start_matches('#').trim().chars();
    let kept = kept.filter(|c| c.is_alphanumeric() || " -_".contains(*c));
    kept.collect::<String>().to_lowercase().replace(' ', "-")
}

/// Where the links of a line lead.
fn links(line: &str) -> impl Iterator<Item = &str> {
    line.split("](").skip(1).filter_map(|behind| behind.split(')').next())
}

#[test]
fn links_lead_somewhere() {
    let mut count = 0;
    for file in documents() {
        let document = text(&file);
        for link in parts(&document).0.into_iter().flat_map(links) {
            let (path, place) = link.split_once('#').unwrap_or((link, ""));
            let named = match path {
                "" => file.clone(),
                _ => file.parent().expect("a folder").join(path),
            };
            assert!(named.exists(), "{}: {link}", file.display());
            let is_there = |other: &str| {
                parts(other).0.iter().any(|line| line.starts_with('#') && anchor(line) == place)
            };
            assert!(place.is_empty() || is_there(&text(&named)), "{}: {link}", file.display());
            count += 1;
        }
    }
    assert!(count > 30, "{count} links");
}

/// What a line of a crate's file defines: of definitions and proofs what is public, fields among
/// them, of code also what is not.
fn defined(line: &str) -> Option<&str> {
    let without =
        |line, words: &[&str]| words.iter().find_map(|word| str::strip_prefix(line, word));
    let line = line.trim_start();
    let line = without(line, &["abbrev ", "unfoldable "]).unwrap_or(line);
    let public = without(line, &["pub "]);
    let line = public.unwrap_or(line);
    let kinds = ["record ", "data ", "fn ", "extern \"C\" fn ", "enum ", "struct ", "const "];
    let kind = without(line, &kinds);
    let is_end = |c: char| !c.is_alphanumeric() && !"_-'".contains(c);
    let name = kind.or(public)?.split(is_end).next()?;
    (!name.is_empty()).then_some(name)
}

/// The crates: what each of their files defines, and their folders and wrong programs, by where
/// they are.
struct Crates {
    defined: BTreeMap<String, HashSet<String>>,
    others: HashSet<String>,
}

impl Crates {
    fn read() -> Crates {
        let crates = root().join("crates");
        let (mut read, mut folders) =
            (Crates { defined: BTreeMap::new(), others: HashSet::new() }, vec![crates.clone()]);
        while let Some(folder) = folders.pop() {
            for entry in std::fs::read_dir(&folder).expect("a folder") {
                let path = entry.expect("a file").path();
                let place = path.strip_prefix(&crates).expect("a place").display().to_string();
                let name = path.file_stem().expect("a name").to_string_lossy().to_string();
                match path.extension().and_then(|ending| ending.to_str()) {
                    Some("antt" | "rt") => {
                        let text = text(&path);
                        let names = text.lines().filter_map(defined).map(str::to_string);
                        read.defined.insert(place, names.collect());
                    }
                    Some("edit") => {
                        let owner = place.split('/').next().unwrap_or("");
                        read.others.extend([format!("{owner}/{name}"), name]);
                    }
                    _ if path.is_dir() && name != "out" => {
                        read.others.insert(place);
                        folders.push(path);
                    }
                    _ => {}
                }
            }
        }
        read
    }

    /// Whether a file, or one of a folder's, defines a name.
    fn defines(&self, place: &str, name: &str) -> bool {
        let within = self.defined.range(place.to_string()..);
        let mut within = within.take_while(|(file, _)| file.starts_with(place));
        within.any(|(_, names)| names.contains(name))
    }

    /// Whether there is a crate, a folder, a file or a wrong program of that name.
    fn has(&self, name: &str) -> bool {
        self.others.contains(name.trim_end_matches('/')) || self.defined.contains_key(name)
    }
}

/// `a/{b, c}.d` as `a/b.d` and `a/c.d`.
fn each_of(name: &str) -> Vec<String> {
    let parts = name.split_once('{').and_then(|(before, rest)| {
        let (inside, behind) = rest.split_once('}')?;
        Some(inside.split(',').map(|one| format!("{before}{}{behind}", one.trim())).collect())
    });
    parts.unwrap_or_else(|| vec![name.to_string()])
}

/// A function without its arguments.
fn called(name: &str) -> String {
    let (mut depth, mut kept) = (0, String::new());
    for c in name.chars() {
        depth += i32::from(c == '(');
        kept.extend((depth == 0).then_some(c));
        depth -= i32::from(c == ')');
    }
    kept
}

/// A line of the contracts' page: what stands in quotes, each with the words before it.
fn quoted(line: &str) -> Vec<(&str, &str)> {
    let mut parts = line.split('`');
    let mut quoted = Vec::new();
    while let (Some(before), Some(inside)) = (parts.next(), parts.next()) {
        quoted.push((before, inside));
    }
    quoted
}

/// The names of a line that a file has behind them, as in "`a`, `b` and `c` in `FILE`" and in
/// "`a`, `b` (`FILE`)", with that file; and those of an item below "`FILE`:".
fn placed<'a>(line: &'a str, above: &mut Option<&'a str>) -> Vec<(&'a str, &'a str)> {
    let is_file = |name: &str| name.ends_with(".antt") || name.ends_with("/proofs/");
    let (mut placed, mut names) = (Vec::new(), Vec::new());
    for (before, inside) in quoted(line) {
        match (is_file(inside), before) {
            (true, " in " | " (") => placed.extend(names.drain(..).map(|name| (name, inside))),
            (true, _) => names.clear(),
            (false, ", " | " and ") => names.push(inside),
            (false, _) => names = vec![inside],
        }
    }
    match line.strip_prefix("- ") {
        Some(item) if placed.is_empty() => {
            let listed = quoted(item).into_iter().enumerate();
            let listed = listed.take_while(|(at, (before, _))| *at == 0 || *before == ", ");
            placed.extend(
                above
                    .iter()
                    .flat_map(|file| listed.clone().map(move |(_, (_, name))| (name, *file))),
            );
        }
        Some(_) => {}
        None if line.is_empty() => {}
        None => {
            let last = quoted(line).last().map(|(_, name)| *name);
            *above = last.filter(|name| line.ends_with("`:") && is_file(name));
        }
    }
    placed
}

/// Definitions, theorems, functions, files and wrong programs that the contracts' page names are
/// there, and where a file is named with them they are in it.
#[test]
fn contracts_name_what_is_there() {
    let (crates, page) = (Crates::read(), text(&root().join("docs/CONTRACTS.md")));
    let (mut above, mut in_files, mut count, mut absent) = (None, 0, 0, Vec::new());
    for line in parts(&page).0 {
        for (name, files) in placed(line, &mut above) {
            let name = name.split(' ').next().unwrap_or(name);
            let is_there = each_of(files).iter().any(|file| crates.defines(file, name));
            absent.extend((!is_there).then(|| format!("`{name}` in `{files}`")));
            in_files += 1;
        }
        for name in quoted(line).into_iter().flat_map(|(_, name)| each_of(&called(name))) {
            let is_sign = |c: char| c.is_alphanumeric() || "_-'/.:".contains(c);
            if !name.starts_with(char::is_alphabetic) || !name.chars().all(is_sign) {
                continue;
            }
            let elsewhere = ["crates/", "specs/", "must-fail", "sheet", "Refusal", "out"];
            let of_std = ["Option", "None", "Some", "Result", "Ok", "Err", "Ordering"];
            let is_elsewhere = elsewhere.iter().chain(&of_std).any(|other| *other == name);
            let is_there = match name.split("::").collect::<Vec<_>>()[..] {
                [first, .., last] if crates.has(&format!("{first}/src")) => {
                    crates.defines(&format!("{first}/src/"), last)
                }
                [.., last] => crates.has(last) || crates.defines("", last),
                [] => false,
            };
            absent.extend((!is_elsewhere && !is_there).then(|| format!("`{name}`")));
            count += 1;
        }
    }
    assert!(absent.is_empty(), "docs/CONTRACTS.md: {absent:#?}");
    println!("{in_files} names in files, {count} names");
    assert!(in_files > 150 && count > 400, "{in_files} names in files, {count} names");
}

/// It is read in five minutes.
#[test]
fn a_front_page() {
    let lines = text(&root().join("README.md")).lines().count();
    assert!(lines <= 130, "README.md has {lines} lines");
}

/// The Rust of the front page: its lines stand here, and hold.
#[test]
fn the_front_page_builds_as_shown() -> Result<(), Box<dyn std::error::Error>> {
    use tezhukor::build::{binary, path, Context, Op};
    use tezhukor::text::Symbols;
    let mut symbols = Symbols::default(); // in a tree names are numbers
    let names = ["offset", "station", "start"];
    let [offset, station, start] = names.map(|name| path(symbols.symbol(name)));
    let tree = binary(Op::Sub, offset, binary(Op::Sub, station, start)).tree(Context::None)?;
    assert_eq!(tree.to_rust(&symbols.names()?)?, "offset - (station - start)");
    let document = text(&root().join("README.md"));
    let blocks = parts(&document).1.into_iter();
    let shown: Vec<&str> = blocks.filter(|lines| lines[0].starts_with("use ")).flatten().collect();
    let is_here = |line: &&str| include_str!("documents.rs").contains(&format!("    {line}\n"));
    assert!(shown.len() > 5 && shown.iter().all(is_here), "{shown:?}");
    Ok(())
}

/// The blocks of the recipes' page stand in the recipes, line below line, comments left out.
#[test]
fn recipes_are_as_shown() {
    let files = ["curve/build.rs", "editor.rs", "archive.rs", "reads_back.rs"];
    let sources = files.map(|file| text(&root().join("rust/recipes").join(file))).concat();
    let code = sources.lines().filter(|line| !line.trim_start().starts_with("//"));
    let code: String = code.map(|line| format!("{line}\n")).collect();
    let document = text(&root().join("docs/RECIPES.md"));
    let blocks = parts(&document).1.into_iter().filter(|lines| lines[0].starts_with("let "));
    let blocks: Vec<Vec<&str>> = blocks.collect();
    for block in &blocks {
        let shown: String = block.iter().map(|line| format!("    {line}\n")).collect();
        assert!(code.contains(&shown), "docs/RECIPES.md:\n{shown}");
    }
    assert_eq!(blocks.len(), 2);
}

/// The table of refusals has each number with its sentence, and what to do.
#[test]
fn refusals_are_as_shown() {
    let page = text(&root().join("docs/SHEET.md"));
    let rows = parts(&page).0.into_iter().filter(|line| line.starts_with("| "));
    let rows: Vec<&str> = rows.filter(|row| row[2..].starts_with(char::is_numeric)).collect();
    for (refusal, row) in tezhukor::Refusal::ALL.into_iter().zip(&rows) {
        let meant = format!("| {} | {refusal} | ", refusal.number());
        assert!(row.starts_with(&meant) && row.len() > meant.len() + 2, "{row}");
    }
    assert_eq!(rows.len(), tezhukor::Refusal::ALL.len());
}

/// Each `$ ` line of a document with what it shows below it.
fn transcript(document: &str) -> Vec<(String, String)> {
    let mut shown: Vec<(String, String)> = Vec::new();
    for block in parts(document).1 {
        if !block.first().is_some_and(|line| line.starts_with("$ ")) {
            continue;
        }
        for line in block {
            match (line.strip_prefix("$ "), shown.last_mut()) {
                (Some(command), _) => shown.push((command.to_string(), String::new())),
                (None, Some((_, printed))) => *printed += &format!("{line}\n"),
                (None, None) => unreachable!("a block begins with a command"),
            }
        }
    }
    shown
}

/// Runs what a document shows, in a folder with some files, and holds what is printed to it.
fn runs_as_shown(document: &str, files: &[(&str, &[u8])]) {
    let name = document.replace(['/', '.'], "-");
    let folder = Path::new(env!("CARGO_TARGET_TMPDIR")).join(name);
    let _ = std::fs::remove_dir_all(&folder);
    for (name, bytes) in files {
        let file = folder.join(name);
        std::fs::create_dir_all(file.parent().expect("a folder")).expect("a folder");
        std::fs::write(file, bytes).expect("a file");
    }
    std::fs::create_dir_all(&folder).expect("a folder");
    let sheet = Path::new(env!("CARGO_BIN_EXE_sheet")).parent().expect("a folder");
    let path = format!("{}:{}", sheet.display(), std::env::var("PATH").unwrap_or_default());
    let shown = transcript(&text(&root().join(document)));
    assert!(!shown.is_empty());
    for (command, meant) in shown {
        let together = format!("{{ {command}\n}} 2>&1");
        let output = Command::new("sh")
            .args(["-c", &together])
            .current_dir(&folder)
            .env("PATH", &path)
            .output()
            .expect("a shell");
        let printed = String::from_utf8_lossy(&output.stdout);
        assert_eq!(printed.trim_end(), meant.trim_end(), "{document}: $ {command}");
    }
}

#[test]
fn the_front_page_runs_as_shown() {
    runs_as_shown("README.md", &[]);
}

#[test]
fn the_examples_of_sheet_run_as_shown() {
    // Node 2 owns itself.
    let bad = [0, 2, 33, 0, 0, 2, 0, 0, 33, 0, 0, 2, 0, 0];
    let below_zero = [0, 1, 1, 0, 0, 0, 0, 0];
    // Calls of `#[..] a.0` and of `a.b` in a group.
    let name = [26, 0, 0, 0, 0, 1];
    let attribute = [&[0, 3, 8, 0, 0, 2, 0, 0, 13, 2, 1, 3, 0, 2][..], &name].concat();
    let group =
        [&[0, 4, 8, 0, 0, 2, 0, 0, 15, 0, 0, 3, 0, 0, 13, 0, 0, 4, 0, 2][..], &name].concat();
    // a + b with its nodes numbered in two ways, and b + a.
    let other = [26, 0, 0, 0, 0, 2];
    let sum = [&[0, 3, 5, 0, 0, 2, 3, 0][..], &name, &other].concat();
    let turned = [&[0, 3, 5, 0, 0, 3, 2, 0][..], &other, &name].concat();
    let back = [&[0, 3, 5, 0, 0, 2, 3, 0][..], &other, &name].concat();
    runs_as_shown(
        "docs/SHEET.md",
        &[
            ("bad.tree", &bad),
            ("bad.columns", &below_zero),
            ("attribute.tree", &attribute),
            ("group.tree", &group),
            ("turned.tree", &turned),
            ("archive/a.tree", &sum),
            ("archive/b.tree", &turned),
            ("archive/c.tree", &back),
            ("archive/sub/d.tree", &back),
        ],
    );
}
