//! Where the blocks of the library's machine code begin: `objdump` takes this program apart.
//!
//! A block begins a function, stands where a jump goes to, or follows an instruction that jumps,
//! returns or traps. One that a table of jumps alone leads to follows such an instruction.

use std::collections::{BTreeSet, HashSet};
use std::path::Path;
use std::process::Command;

/// A function of the library, where its blocks begin and where it branches, in the addresses of
/// the linked program.
#[derive(Debug)]
pub struct Function {
    pub name: String,
    /// Which of the archives it is from, by its place among these.
    pub archive: usize,
    pub start: usize,
    pub end: usize,
    pub blocks: Vec<usize>,
    pub branches: Vec<usize>,
}

/// What a program of the system prints.
fn printed(program: &str, words: &[&str], file: &Path) -> Option<String> {
    let output = Command::new(program).args(words).arg(file).output().ok()?;
    let text = || String::from_utf8_lossy(&output.stdout).into_owned();
    output.status.success().then(text)
}

/// The functions that an archive defines.
pub fn names(archive: &Path) -> Option<HashSet<String>> {
    let is_function = |line: &str| match line.split_whitespace().collect::<Vec<_>>()[..] {
        [_, "t" | "T" | "w" | "W", name] => Some(name.to_string()),
        _ => None,
    };
    Some(printed("nm", &["--defined-only"], archive)?.lines().filter_map(is_function).collect())
}

/// One instruction, or the head of a function.
enum Line<'a> {
    Head { at: usize, name: &'a str },
    Code { at: usize, code: &'a str },
}

fn parsed(line: &str) -> Option<Line<'_>> {
    let address = |text: &str| usize::from_str_radix(text, 16).ok();
    if let Some((at, name)) = line.split_once(" <") {
        if let (Some(at), Some(name)) = (address(at), name.strip_suffix(">:")) {
            return Some(Line::Head { at, name });
        }
    }
    let (at, code) = line.split_once(":\t")?;
    Some(Line::Code { at: address(at.trim())?, code: code.trim() })
}

/// What stands before an instruction's own name.
const PREFIXES: [&str; 8] = ["bnd", "notrack", "rep", "repz", "data16", "cs", "ds", "lock"];

/// What an instruction does to the order of instructions.
enum Flow {
    On,
    /// Goes there or on.
    Branch(Option<usize>),
    /// Goes there, if that is known, and not on.
    Away(Option<usize>),
    /// Only fills.
    Fill,
}

fn flow(code: &str) -> Flow {
    let mut words = code.split_whitespace().skip_while(|word| PREFIXES.contains(word));
    let name = words.next().unwrap_or("");
    let mut target = || words.next().and_then(|word| usize::from_str_radix(word, 16).ok());
    match name {
        "jmp" | "jmpq" => Flow::Away(target()),
        "ret" | "retq" | "ud2" | "hlt" => Flow::Away(None),
        "nop" | "nopw" | "nopl" | "int3" => Flow::Fill,
        "xchg" if code.ends_with("%ax,%ax") => Flow::Fill,
        _ if name.starts_with('j') => Flow::Branch(target()),
        _ => Flow::On,
    }
}

/// The functions that archives define in a program that they are linked to, one after the other;
/// none if it cannot be taken apart.
pub fn of(program: &Path, mut archives: Vec<HashSet<String>>) -> Option<Vec<Function>> {
    let text = printed("objdump", &["-d", "--no-show-raw-insn"], program)?;
    let (mut functions, mut starts) = (Vec::<Function>::new(), BTreeSet::new());
    let (mut is_ours, mut begins) = (false, false);
    for line in text.lines().filter_map(parsed) {
        match line {
            Line::Head { at, name } => {
                // A function of two archives is met twice.
                let archive = archives.iter_mut().position(|names| names.remove(name));
                is_ours = archive.is_some();
                begins = is_ours;
                if let Some(archive) = archive {
                    let (name, [blocks, branches]) = (name.to_string(), Default::default());
                    let function = Function { name, archive, start: at, end: at, blocks, branches };
                    functions.push(function);
                }
            }
            Line::Code { at, code } if is_ours => {
                let flow = flow(code);
                if begins && !matches!(flow, Flow::Fill) {
                    starts.insert(at);
                    begins = false;
                }
                let function = functions.last_mut().expect("the head came before");
                function.end = at + 1;
                if let Flow::Branch(_) = flow {
                    function.branches.push(at);
                }
                match flow {
                    Flow::Branch(target) | Flow::Away(target) => {
                        starts.extend(target);
                        begins = true;
                    }
                    Flow::On | Flow::Fill => {}
                }
            }
            Line::Code { .. } => {}
        }
    }
    for function in &mut functions {
        function.blocks = starts.range(function.start..function.end).copied().collect();
    }
    Some(functions)
}
