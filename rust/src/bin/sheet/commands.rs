//! The commands.

use crate::answer::{words, Answer};
use crate::kind::Kind;
use crate::{blame, doubles, draft, edits, locate, pack, page, show, why, USAGE};
use std::cmp::Ordering;
use std::ffi::{OsStr, OsString};
use std::fmt::Write;
use std::io::Read;
use tezhukor::sizes::MOST_FILE_BYTES;
use tezhukor::text::{lexer, Names, Symbols};
use tezhukor::{codes, contexts, forms, Refusal, Token, Tree};

/// One byte more than a tree file may have shows that it is too long.
const FILE_BYTES: u64 = MOST_FILE_BYTES as u64 + 1;

/// An expression as text may have so many bytes.
const TEXT_BYTES: u64 = 1 << 20;

/// A names file may have so many bytes: 256 for each of the 65,535 symbols.
const NAMES_BYTES: u64 = 1 << 24;

/// Runs a command. An answer in `Err` is a refusal or wrong usage.
pub fn run(arguments: &[OsString]) -> Result<Answer, Answer> {
    let Some((command, rest)) = arguments.split_first() else {
        return Err(Answer::usage());
    };
    match command.to_str() {
        Some("read") => return read_by(rest),
        Some("pack") => return pack::rearranged(Kind::Tree, rest),
        Some("unpack") => return pack::rearranged(Kind::Columns, rest),
        Some("draft") => {
            let (context, text) = draft_text(rest)?;
            return draft::draft(context, &text);
        }
        Some("page") => return page::page(rest),
        _ => {}
    }
    let (names, rest) = names_option(rest)?;
    match (command.to_str(), rest, names) {
        (Some("show"), [file], names) => show(file, names, false),
        (Some("show"), [option, file], names) if option == "--count" => show(file, names, true),
        (Some("why"), [file], names) => why(file, names),
        (Some("rows"), [file], None) => rows(file),
        (Some("tokens"), [file], None) => tokens(file),
        (Some("check"), [file], None) => check(file),
        (Some("canonical"), [file], None) => Ok(Answer::done(load(file)?.to_file())),
        (Some("compare"), [first, second], None) => compare(first, second),
        (Some("doubles"), [_, ..], None) => doubles::listed(rest),
        (Some("edit"), [file, node, text], names) => edits::edit(file, node, text, names),
        (Some("preview"), [file, node, text], names) => edits::preview(file, node, text, names),
        (Some("help" | "--help" | "-h"), _, None) => Ok(Answer::done(USAGE)),
        _ => Err(Answer::usage()),
    }
}

/// Takes `--names FILE` from the front.
fn names_option(arguments: &[OsString]) -> Result<(Option<&OsStr>, &[OsString]), Answer> {
    match arguments {
        [option, file, rest @ ..] if option == "--names" => Ok((Some(file), rest)),
        [option] if option == "--names" => Err(Answer::usage()),
        _ => Ok((None, arguments)),
    }
}

/// Reads with the options of `read`, which stand in any order: `--condition`, `--names OUT`.
fn read_by(arguments: &[OsString]) -> Result<Answer, Answer> {
    let (mut context, mut names, mut rest) = (contexts::NONE, None, arguments);
    loop {
        rest = match (rest, names) {
            ([option, others @ ..], _) if option == "--condition" && context == contexts::NONE => {
                context = contexts::CONDITION;
                others
            }
            ([option, ..], None) if option == "--names" => {
                let (file, others) = names_option(rest)?;
                names = file;
                others
            }
            ([], names) => return read(context, &text_from(std::io::stdin())?, names),
            ([text], names) if text != "--condition" && text != "--names" => {
                return read(context, &utf8(text.as_encoded_bytes())?, names);
            }
            _ => return Err(Answer::usage()),
        };
    }
}

/// The context and the text of a draft, by the option of `draft`.
pub fn draft_text(arguments: &[OsString]) -> Result<(u16, String), Answer> {
    let (context, rest) = match arguments {
        [option, rest @ ..] if option == "--condition" => (contexts::CONDITION, rest),
        _ => (contexts::NONE, arguments),
    };
    match rest {
        [] => Ok((context, text_from(std::io::stdin())?)),
        [text] if text != "--condition" => Ok((context, utf8(text.as_encoded_bytes())?)),
        _ => Err(Answer::usage()),
    }
}

fn read(context: u16, text: &str, names: Option<&OsStr>) -> Result<Answer, Answer> {
    let mut symbols = Symbols::default();
    let tree = expression(context, text, text, &mut symbols)?;
    if let Some(file) = names {
        write_names(file, &symbols)?;
    }
    Ok(Answer::done(tree.to_file()))
}

/// The tree of an expression as text in a context, with symbols for its names. What is wrong is
/// shown in the text that was typed, which has the same places.
pub fn expression(
    context: u16,
    text: &str,
    typed: &str,
    symbols: &mut Symbols,
) -> Result<Tree, Answer> {
    let at = |at, message: &str| Answer::refused(locate::pointed(typed, at, message));
    let tokens = lexer::tokens(text).map_err(|error| at(error.at, &error.message))?;
    let named = lexer::with_symbols(text, &tokens, |word| symbols.symbol(word));
    Tree::read(context, &named).map_err(|refusal| match refusal {
        Refusal::NoReading => {
            let codes: Vec<u16> = tokens.iter().map(|token| token.code).collect();
            let place = locate::unread(context, &codes);
            at(
                tokens.get(place.token).map_or(typed.trim_end().len(), |token| token.at),
                &place.message,
            )
        }
        _ => Answer::refused(words(refusal, "")),
    })
}

/// Writes a names file; one that is there stays until the new one is whole. What is no file by
/// itself, as a link, a pipe or a device, must not be replaced, and is written to.
pub fn write_names(file: &OsStr, symbols: &Symbols) -> Result<(), Answer> {
    let lines = symbols.lines();
    let written = match std::fs::symlink_metadata(file) {
        Ok(other) if !other.is_file() => std::fs::write(file, lines),
        _ => pack::put(file, lines.as_bytes(), true),
    };
    written.map_err(|error| unreadable(file, &error))
}

/// The text, and if that is asked how many pairs were added.
fn show(file: &OsStr, names: Option<&OsStr>, is_counted: bool) -> Result<Answer, Answer> {
    let (tree, names) = (load(file)?, names_from(names)?);
    let shown = show::shown(&tree, names);
    let mut lines = vec![shown.text(show::is_coloured())];
    lines.extend(is_counted.then(|| crate::count::Count::of(&tree).words()));
    Ok(Answer { message: shown.note(), ..Answer::done(lines.join("\n") + "\n") })
}

fn why(file: &OsStr, names: Option<&OsStr>) -> Result<Answer, Answer> {
    let (tree, names) = (load(file)?, names_from(names)?);
    let mut lines = why::lines(&tree, names);
    lines.push(crate::count::Count::of(&tree).promise());
    Ok(Answer::done(lines.join("\n") + "\n"))
}

/// As the program `parens` prints them.
fn rows(file: &OsStr) -> Result<Answer, Answer> {
    let tree = load(file)?;
    let mut text = format!("ok {}\n", tree.count());
    for (number, row) in (1..).zip(tree.rows()) {
        if tree.node(number).is_some_and(|node| node.form <= forms::YIELD) {
            let (pair, precedence, flags) = (row.pair, row.precedence, row.flags);
            let (previous, next) = (row.previous_operator, row.next_operator);
            let _ = writeln!(text, "{number} {pair} {precedence} {previous} {next} {flags}");
        }
    }
    Ok(Answer::done(text))
}

/// As the program `tokens` prints them, and below how the codes are spelled.
fn tokens(file: &OsStr) -> Result<Answer, Answer> {
    let tokens = load(file)?.tokens().map_err(|refusal| Answer::refused(words(refusal, "")))?;
    let line = |word: fn(&Token) -> String| tokens.iter().map(word).collect::<Vec<_>>().join(" ");
    let numbers = line(|token| token.code.to_string());
    let symbols = line(|token| token.symbol.to_string());
    let spelled = line(|token| codes::SPELLED[usize::from(token.code)].to_string());
    Ok(Answer::done(format!("ok {}\n{numbers}\n{symbols}\n{spelled}\n", tokens.len())))
}

fn check(file: &OsStr) -> Result<Answer, Answer> {
    let tree = load(file)?;
    let plain = match tree.tokens() {
        Ok(_) => "plain",
        Err(_) => "not plain",
    };
    Ok(Answer::done(format!(
        "accepted: {} nodes, context {}, {plain}\n",
        tree.count(),
        tree.context()
    )))
}

/// How the first file stands to the second.
fn compare(first: &OsStr, second: &OsStr) -> Result<Answer, Answer> {
    let (one, two) = (put_back(first)?, put_back(second)?);
    let order = tezhukor::cmp(&one, &two).map_err(|refusal| {
        let (file, bytes) = match Tree::load(&one) {
            Err(_) => (first, &one),
            Ok(_) => (second, &two),
        };
        Answer::refused_file(file, &blamed(Kind::Tree, refusal, bytes))
    })?;
    Ok(Answer::done(match order {
        Ordering::Less => "before\n",
        Ordering::Equal => "equal\n",
        Ordering::Greater => "after\n",
    }))
}

/// Loads a tree file or a rearranged one, or says what is wrong with it and where.
pub fn load(file: &OsStr) -> Result<Tree, Answer> {
    let bytes = tree_bytes(file)?;
    loaded(Kind::of(file), &bytes).map_err(Answer::refused)
}

/// The tree of a file's bytes, or what is wrong with them and where.
pub fn loaded(kind: Kind, bytes: &[u8]) -> Result<Tree, String> {
    kind.load(bytes).map_err(|refusal| blamed(kind, refusal, bytes))
}

/// A refusal of a file with the place that it speaks of.
pub fn blamed(kind: Kind, refusal: Refusal, bytes: &[u8]) -> String {
    words(refusal, &blame::place(kind, refusal, bytes))
}

/// The bytes of a tree file, or of the one that a rearranged file comes from.
fn put_back(file: &OsStr) -> Result<Vec<u8>, Answer> {
    let bytes = tree_bytes(file)?;
    match Kind::of(file) {
        Kind::Tree => Ok(bytes),
        kind => kind
            .rearranged(&bytes)
            .map_err(|refusal| Answer::refused_file(file, &blamed(kind, refusal, &bytes))),
    }
}

/// The bytes of a tree file or a rearranged one, or of the beginning of one that is too long.
pub fn tree_bytes(file: &OsStr) -> Result<Vec<u8>, Answer> {
    bytes_of(file, FILE_BYTES)
}

/// At most so many bytes of a file, or of standard input.
fn bytes_of(file: &OsStr, most: u64) -> Result<Vec<u8>, Answer> {
    let mut bytes = Vec::new();
    let read = match file.to_str() {
        Some("-") => std::io::stdin().take(most).read_to_end(&mut bytes),
        _ => std::fs::File::open(file).and_then(|from| from.take(most).read_to_end(&mut bytes)),
    };
    read.map_err(|error| unreadable(file, &error))?;
    Ok(bytes)
}

fn unreadable(file: &OsStr, error: &std::io::Error) -> Answer {
    Answer::wrong(format!("{}: {error}", file.to_string_lossy()))
}

/// An expression as text.
fn text_from(from: impl Read) -> Result<String, Answer> {
    let mut bytes = Vec::new();
    let read = from.take(TEXT_BYTES + 1).read_to_end(&mut bytes);
    read.map_err(|error| unreadable(OsStr::new("standard input"), &error))?;
    utf8(&bytes)
}

pub fn utf8(bytes: &[u8]) -> Result<String, Answer> {
    utf8_up_to(TEXT_BYTES, bytes).map_err(|wrong| Answer::refused(format!("the text {wrong}")))
}

/// At most so many bytes as text, or what is wrong with them.
fn utf8_up_to(most: u64, bytes: &[u8]) -> Result<String, String> {
    if bytes.len() as u64 > most {
        return Err(format!("is longer than {most} bytes"));
    }
    String::from_utf8(bytes.to_vec())
        .map_err(|error| format!("is not UTF-8 at byte {}", error.utf8_error().valid_up_to()))
}

fn names_from(file: Option<&OsStr>) -> Result<Names, Answer> {
    Ok(Names::new(&names_text(file)?))
}

/// The lines of a names file, none without one.
pub fn names_text(file: Option<&OsStr>) -> Result<String, Answer> {
    let Some(file) = file else {
        return Ok(String::new());
    };
    let bytes = bytes_of(file, NAMES_BYTES + 1)?;
    utf8_up_to(NAMES_BYTES, &bytes).map_err(|wrong| Answer::refused_file(file, &wrong))
}
