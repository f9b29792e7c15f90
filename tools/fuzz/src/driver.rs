//! One input after the other, and what came of them.

use crate::ask::{export, Asker, EXPORTS, IN_HEADER};
use crate::blocks::{self, Function};
use crate::corpus;
use crate::input::{Input, EXPORT};
use crate::make;
use crate::traps::{self, Armed};
use model::generate::Dice;
use model::sizes::LAST_REFUSAL;
use std::collections::{BTreeMap, HashSet};
use std::path::{Path, PathBuf};

/// The static libraries: that of the header, and what lies behind a row.
const ARCHIVES: [&str; 2] = ["answers", "answers_asked"];

/// How many inputs a short run tries.
const SHORT: u64 = 60_000;

/// How many inputs are tried after the corpus on a library with a turned branch.
const TURNED: u64 = 30_000;

/// How many inputs have which reply.
type Replies = [u64; LAST_REFUSAL as usize + 1];

pub struct Driver {
    asker: Asker,
    functions: Vec<Function>,
    /// How far these stand from where they were linked.
    moved: usize,
    /// None where the program cannot be taken apart.
    armed: Option<Armed>,
    /// What reached a block that none before did, by export.
    kept: Vec<Vec<Input>>,
    replies: [Replies; EXPORTS.len()],
    different: u64,
}

/// A function whose place in the linked program tells how far this one is moved.
#[no_mangle]
pub extern "C" fn tezhukor_fuzz_anchor() -> u16 {
    LAST_REFUSAL
}

fn anchor() -> usize {
    tezhukor_fuzz_anchor as *const () as usize
}

/// The static libraries, as `rust/build.rs` looks for them.
fn libraries() -> [PathBuf; 2] {
    let own = Path::new(env!("CARGO_MANIFEST_DIR")).join("../../target/staticlib");
    let folder = std::env::var_os("TEZHUKOR_LIB").map_or(own, PathBuf::from);
    ARCHIVES.map(|name| folder.join(format!("lib{name}.a")))
}

/// The library's functions, and how far they are moved.
fn taken_apart() -> Option<(Vec<Function>, usize)> {
    let name = "tezhukor_fuzz_anchor";
    let of_libraries = libraries().map(|path| blocks::names(&path));
    let own = Some(HashSet::from([name.to_string()]));
    let names: Option<Vec<_>> = of_libraries.into_iter().chain([own]).collect();
    let mut functions = blocks::of(&std::env::current_exe().ok()?, names?)?;
    let at = functions.iter().position(|function| function.name == name)?;
    let linked = functions.remove(at).start;
    Some((functions, anchor().wrapping_sub(linked)))
}

impl Driver {
    pub fn new() -> Driver {
        traps::watch_faults();
        match taken_apart() {
            Some((functions, moved)) => {
                let armed = Armed::new(&functions, moved);
                println!("{} functions, {} blocks", functions.len(), armed.all());
                Driver { moved, ..Driver::with(functions, Some(armed)) }
            }
            None => {
                println!("no nm or objdump is at hand, so blocks are not counted");
                Driver::with(Vec::new(), None)
            }
        }
    }

    fn with(functions: Vec<Function>, armed: Option<Armed>) -> Driver {
        let (kept, replies) = (vec![Vec::new(); EXPORTS.len()], Default::default());
        Driver { asker: Asker::new(), functions, moved: 0, armed, kept, replies, different: 0 }
    }

    fn reached(&self) -> usize {
        self.armed.as_ref().map_or(0, |armed| armed.reached().len())
    }

    /// Tries an input, and keeps it if it reaches a new block.
    fn try_one(&mut self, input: Input) {
        let before = self.reached();
        let bytes = input.bytes();
        traps::trying(&bytes);
        let told = self.asker.ask(&input);
        let export = export(input.head[EXPORT]);
        self.replies[export][usize::from(told.refusal)] += 1;
        if !told.is_same {
            self.different += 1;
            println!("{} differs by the input {}", EXPORTS[export], corpus::hex(&bytes));
        }
        if self.reached() > before {
            self.kept[export].push(input);
        }
    }

    fn tried(&self) -> u64 {
        self.replies.iter().flatten().sum()
    }

    fn print_so_far(&self, what: &str) {
        let [tried, reached] = [self.tried(), self.reached() as u64];
        println!("{what}: inputs {tried}, blocks {reached}, different {}", self.different);
    }

    /// Tries so many inputs, the corpus and what is recorded first; the answer is how many differ.
    pub fn run(&mut self, inputs: u64, seed: u64) -> u64 {
        for input in corpus::read(&corpus::path()) {
            self.try_one(input);
        }
        self.print_so_far("the corpus");
        corpus::at_bounds().into_iter().for_each(|input| self.try_one(input));
        self.print_so_far("with those at bounds");
        let recorded = corpus::recorded();
        let step = (recorded.len() as u64 * 4 / inputs).max(1) as usize;
        recorded.into_iter().step_by(step).for_each(|input| self.try_one(input));
        self.print_so_far("with recorded ones");
        for index in 0.. {
            if self.tried() >= inputs {
                break;
            }
            let input = self.next(&mut Dice::new(seed, index));
            self.try_one(input);
            if index % 500_000 == 499_999 {
                self.print_so_far("with made ones");
            }
        }
        self.different
    }

    /// The same, with all that came of them printed and what was found kept.
    pub fn run_and_tell(&mut self, inputs: u64, seed: u64) -> u64 {
        self.run(inputs, seed);
        let folder = Path::new(env!("CARGO_MANIFEST_DIR")).join("../../target");
        corpus::write(&folder.join(format!("fuzz-found-{seed}")), &self.kept.concat());
        self.print();
        self.different
    }

    /// The same in seconds.
    pub fn run_short(&mut self) -> u64 {
        self.run(SHORT, 1);
        self.print_together();
        self.different
    }

    /// The next input: each export in turn, but seldom the one that takes a number alone.
    fn next(&self, dice: &mut Dice) -> Input {
        let mut export = dice.below(EXPORTS.len());
        if EXPORTS[export] == "binding" && dice.percent(90) {
            export = 5;
        }
        let others = &self.kept[dice.below(EXPORTS.len())];
        match dice.below(10) {
            0 => make::noise(export, dice),
            1..=3 => make::fresh(export, dice),
            kind => {
                let own = if kind == 4 { others } else { &self.kept[export] };
                if own.is_empty() || others.is_empty() {
                    return make::fresh(export, dice);
                }
                let [of, other] = [own, others].map(|inputs| &inputs[dice.below(inputs.len())]);
                let mut input = make::mutated(of, other, dice);
                input.head[EXPORT] = export as u8;
                input
            }
        }
    }

    /// Prints what came of all inputs.
    fn print(&self) {
        for (export, replies) in self.replies.iter().enumerate() {
            let all: u64 = replies.iter().sum();
            let by = |reply: usize| match reply {
                0 => format!("done {}", replies[0]),
                _ => format!("{reply}: {}", replies[reply]),
            };
            let met = (0..replies.len()).filter(|&reply| replies[reply] > 0);
            let longest = &self.asker.watch.longest[export];
            println!(
                "{}{}: inputs {all}, {}; longest {} us",
                EXPORTS[export],
                if export < IN_HEADER { "" } else { " (answers_asked)" },
                met.map(by).collect::<Vec<_>>().join(", "),
                longest.nanoseconds / 1_000,
            );
        }
        for (export, &stated) in self.asker.stated.iter().enumerate().filter(|of| *of.1 > 0) {
            println!("{}: {stated} held against a whole second statement", EXPORTS[export]);
        }
        let longest = self.asker.watch.longest.iter().max_by_key(|longest| longest.nanoseconds);
        if let Some(longest) = longest.filter(|longest| longest.input.len() < 4_096) {
            println!("the longest call: {}", corpus::hex(&longest.input));
        }
        self.print_together();
    }

    fn print_together(&self) {
        self.print_blocks();
        self.print_so_far("together");
    }

    /// Tries one input and says what it reaches.
    pub fn one(&mut self, input: &[u8]) -> u64 {
        self.try_one(Input::of(input));
        self.print();
        self.different
    }

    /// The blocks that an input reaches.
    fn blocks_of(&mut self, input: &Input) -> Vec<u32> {
        self.armed.as_mut().expect("blocks are counted").set();
        self.try_one(input.clone());
        self.armed.as_ref().expect("blocks are counted").reached().to_vec()
    }

    /// Makes the corpus anew; the answer is how many inputs differ.
    pub fn make_corpus(&mut self, found: &[&str]) -> u64 {
        let mut inputs = corpus::read(&corpus::path());
        found.iter().for_each(|path| inputs.extend(corpus::read(Path::new(path))));
        inputs.sort_by_key(|input| (input.first.len() + input.second.len(), input.bytes()));
        inputs.dedup();
        let sets: Vec<Vec<u32>> = inputs.iter().map(|input| self.blocks_of(input)).collect();
        // The shortest input that reaches each block, then without those that others make needless.
        let mut shortest = BTreeMap::new();
        for (at, blocks) in sets.iter().enumerate() {
            for &block in blocks {
                shortest.entry(block).or_insert(at);
            }
        }
        let mut chosen: Vec<usize> =
            shortest.values().copied().collect::<HashSet<_>>().into_iter().collect();
        chosen.sort_unstable();
        let mut times = vec![0; self.armed.as_ref().expect("blocks are counted").all()];
        chosen.iter().flat_map(|&at| &sets[at]).for_each(|&block| times[block as usize] += 1);
        for at in (0..chosen.len()).rev() {
            let blocks = &sets[chosen[at]];
            if blocks.iter().all(|&block| times[block as usize] > 1) {
                blocks.iter().for_each(|&block| times[block as usize] -= 1);
                chosen.remove(at);
            }
        }
        let mut kept: Vec<Input> = chosen.iter().map(|&at| inputs[at].clone()).collect();
        kept.sort_by_key(|input| (input.head[EXPORT], input.bytes().len()));
        corpus::write(&corpus::path(), &kept);
        let reached = times.iter().filter(|&&times| times > 0).count();
        println!("{} inputs of {}, which reach {reached} blocks", kept.len(), inputs.len());
        self.different
    }

    /// The branches of the header's library in blocks that the corpus reaches: the function, how far from its start they
    /// stand, and how far from the anchor.
    fn branches(&mut self) -> Vec<(&Function, usize, isize)> {
        corpus::read(&corpus::path()).into_iter().for_each(|input| self.try_one(input));
        let armed = self.armed.as_ref().expect("blocks are counted");
        let met: HashSet<usize> = armed.reached().iter().map(|&block| block as usize).collect();
        let moved = self.moved;
        let (mut found, mut before) = (Vec::new(), 0);
        for function in &self.functions {
            let is_reached = |branch: usize| {
                let at = function.blocks.partition_point(|&block| block <= branch);
                met.contains(&(before + at - 1))
            };
            let reached = function.branches.iter().filter(|&&branch| is_reached(branch));
            for &branch in reached.filter(|_| function.archive == 0) {
                let stands = branch.wrapping_add(moved);
                if traps::condition(stands).is_some() {
                    let far = stands.wrapping_sub(anchor()) as isize;
                    found.push((function, branch - function.start, far));
                }
            }
            before += function.blocks.len();
        }
        found
    }

    /// Turns so many branches, one after the other, each in a process of its own, and counts
    /// those that are told: by a difference, or by a fault, a panic or no end.
    pub fn turned(&mut self, times: usize, seed: u64) -> u64 {
        let mut branches = self.branches();
        let (all, dice) = (branches.len(), &mut Dice::new(seed, 0));
        let mut told = [0; 3];
        for _ in 0..times.min(all) {
            let (function, at, far) = branches.swap_remove(dice.below(branches.len()));
            let program = std::env::current_exe().expect("this program");
            let mut child = std::process::Command::new(program);
            let output = child.args(["turned-at", &far.to_string()]).output();
            let way = match output.expect("it can be started").status.code() {
                Some(1) => 0,
                Some(0) => 2,
                _ => 1,
            };
            told[way] += 1;
            if way == 2 {
                println!("not told: {} {at:x}", function.name);
            }
        }
        let [different, faults, untold] = told;
        println!(
            "of {all} branches turned {}: told by a difference {different}, by a fault, a panic \
             or no end {faults}, not told {untold}",
            times.min(all)
        );
        0
    }

    /// Turns one branch, and tries inputs until one tells; the answer is whether one does.
    pub fn turned_at(branch: isize) -> u64 {
        traps::watch_faults();
        traps::be_patient(5);
        let mut driver = Driver::with(Vec::new(), None);
        traps::turn(anchor().wrapping_add_signed(branch));
        for input in corpus::read(&corpus::path()) {
            let export = export(input.head[EXPORT]);
            driver.kept[export].push(input.clone());
            driver.try_one(input);
        }
        for index in 0..TURNED {
            if driver.different > 0 {
                break;
            }
            let input = driver.next(&mut Dice::new(1, index));
            driver.try_one(input);
        }
        driver.different.min(1)
    }

    /// The blocks of each function that were not reached, as far from its start as they stand.
    fn missed(&self) -> Vec<(&Function, Vec<usize>)> {
        let Some(armed) = &self.armed else { return Vec::new() };
        let met: HashSet<u32> = armed.reached().iter().copied().collect();
        let mut numbers = 0..;
        let missed = |function: &Function| {
            let blocks = function.blocks.iter().zip(numbers.by_ref());
            let of = blocks.filter(|(_, number)| !met.contains(number));
            of.map(|(block, _)| block - function.start).collect()
        };
        let of: Vec<Vec<usize>> = self.functions.iter().map(missed).collect();
        self.functions.iter().zip(of).collect()
    }

    /// Prints the blocks that the corpus does not reach, by function.
    pub fn unreached(&mut self) -> u64 {
        corpus::read(&corpus::path()).into_iter().for_each(|input| self.try_one(input));
        for (function, missed) in self.missed().iter().filter(|(_, missed)| !missed.is_empty()) {
            let Function { name, archive, blocks, .. } = function;
            let at: Vec<String> = missed.iter().map(|at| format!("{at:x}")).collect();
            let [all, reached] = [blocks.len(), blocks.len() - missed.len()];
            println!("{name} ({}): {reached} of {all}, not {}", ARCHIVES[*archive], at.join(" "));
        }
        self.print_blocks();
        self.different
    }

    /// Prints how many blocks are reached, by library.
    fn print_blocks(&self) {
        let missed = self.missed();
        for (number, archive) in ARCHIVES.iter().enumerate() {
            let of = missed.iter().filter(|(function, _)| function.archive == number);
            let [mut all, mut not] = [0, 0];
            for (function, missed) in of {
                all += function.blocks.len();
                not += missed.len();
            }
            println!("{archive}: blocks {} of {all}", all - not);
        }
    }
}
