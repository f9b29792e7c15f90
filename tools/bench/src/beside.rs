//! Two static libraries beside each other, on the same trees, by turns. Each is linked into a
//! program of its own, as whoever uses it links it, and these are asked by turns: this program
//! tells them which side is next, and they say how long it took.

use crate::cases::Cases;
use crate::measure::{counts, median, rounds, Timed};
use crate::sets::{Kind, Set, SETS};
use crate::sides::Side;
use crate::views::{How, Table, A, WARM};
use std::io::{BufRead, BufReader, Lines, Write};
use std::path::{Path, PathBuf};
use std::process::{Child, ChildStdin, ChildStdout, Command, Stdio};
use std::{fs, io};

const HERE: &str = env!("CARGO_MANIFEST_DIR");

/// The old library's figure, the new one's, and their ratio, of each export on each set.
pub fn print(libraries: [&str; 2], how: How) {
    let programs = [("old", libraries[0]), ("new", libraries[1])].map(built);
    for (kind, a) in [(Kind::Surveyors, A::Call), (Kind::Shapes, A::Node)] {
        let line = |(number, set): (usize, &'static Set)| {
            (set.name.to_string(), line(&programs, number, a, how))
        };
        let table = Table {
            corner: format!("{} {}, old, new: ratio", how.unit(), a.name()),
            columns: EXPORTS.map(|side| side.name().to_string()).to_vec(),
            lines: Set::of(kind).map(line).collect(),
        };
        table.turned().print();
    }
}

/// What the libraries are asked.
const EXPORTS: [Side; 15] = [
    Side::Load,
    Side::Save,
    Side::Compare,
    Side::Decide,
    Side::Write,
    Side::Read,
    Side::Edit,
    Side::Preview,
    Side::Carry,
    Side::ToColumns,
    Side::FromColumns,
    Side::LoadColumns,
    Side::Closed,
    Side::Open,
    Side::Binding,
];

fn line(programs: &[PathBuf; 2], number: usize, a: A, how: How) -> Vec<String> {
    let cases = how.cases(&SETS[number]);
    let sides = cases.sides();
    let figures = match how {
        How::Instructions => {
            vec![[0, 1].map(|program: usize| counts(&programs[program], number, &sides))]
        }
        How::Times(_) => {
            let is_asked = |side: &Side| sides.contains(side);
            let sides = EXPORTS.into_iter().chain([Side::Nothing]).filter(is_asked);
            let sides: Vec<Side> = sides.collect();
            let [mut old, mut new] = [0, 1].map(|at: usize| Served::start(&programs[at], number));
            rounds([&mut old, &mut new], &sides)
        }
    };
    let all = a.of(&cases);
    let cell = |side: Side| {
        let of = |program: usize| {
            median(figures.iter().map(|figures| figures[program][side as usize] / all))
        };
        let ratio =
            median(figures.iter().map(|[old, new]| new[side as usize] / old[side as usize]));
        match ratio.is_nan() {
            true => "-".to_string(),
            false => format!("{}, {}: {ratio:.2}", a.shown(of(0)), a.shown(of(1))),
        }
    };
    EXPORTS.map(cell).to_vec()
}

/// This program with a static library, as `target/beside/NAME/bench`. The second library that
/// it links is the one that lies beside the first, or else the repository's.
fn built((name, library): (&str, &str)) -> PathBuf {
    let target = Path::new(HERE).join("target/beside");
    let folder = target.join(name);
    fs::create_dir_all(&folder).expect("a folder");
    let second = Path::new(library).with_file_name(SECOND);
    let second = match second.is_file() {
        true => second,
        false => Path::new(HERE).join("../../target/staticlib").join(SECOND),
    };
    for (from, to) in [(Path::new(library), FIRST), (&second, SECOND)] {
        fs::copy(from, folder.join(to)).unwrap_or_else(|error| panic!("{from:?}: {error}"));
    }
    let cargo = Command::new("cargo")
        .args(["build", "--quiet", "--release", "--manifest-path"])
        .arg(Path::new(HERE).join("Cargo.toml"))
        .arg("--target-dir")
        .arg(&target)
        .env("TEZHUKOR_LIB", &folder)
        .status();
    assert!(cargo.expect("cargo").success(), "no program with {library}");
    let program = folder.join("bench");
    fs::copy(target.join("release/bench"), &program).expect("a program");
    program
}

/// The libraries' names, as the crate `tezhukor` links them.
const FIRST: &str = "libanswers.a";
const SECOND: &str = "libanswers_asked.a";

/// A program that serves.
struct Served {
    program: Child,
    ask: ChildStdin,
    told: Lines<BufReader<ChildStdout>>,
}

impl Served {
    /// With the set of a number.
    fn start(program: &Path, number: usize) -> Self {
        let mut program = Command::new(program)
            .args(["serve", &number.to_string()])
            .stdin(Stdio::piped())
            .stdout(Stdio::piped())
            .spawn()
            .expect("a program that runs");
        let ask = program.stdin.take().expect("a pipe");
        let told = BufReader::new(program.stdout.take().expect("a pipe")).lines();
        Served { program, ask, told }
    }
}

impl Timed for Served {
    fn time(&mut self, side: Side, repeats: u64) -> u64 {
        writeln!(self.ask, "{} {repeats}", side as usize).expect("a program that serves");
        let told = self.told.next().expect("a line").expect("a program that serves");
        told.parse().expect("nanoseconds")
    }
}

impl Drop for Served {
    fn drop(&mut self) {
        // It has nothing to end but itself.
        let _ = self.program.kill();
        let _ = self.program.wait();
    }
}

/// Times a side so many times for each line that names both, until there is none.
pub fn serve(set: &Set) {
    let mut cases: Cases = WARM.cases(set);
    cases.check();
    for line in io::stdin().lines() {
        let line = line.expect("a line");
        let mut words = line.split(' ').map(|word| word.parse::<u64>().expect("a number"));
        let [side, repeats] = [(); 2].map(|()| words.next().expect("two numbers"));
        println!("{}", cases.time(Side::ALL[side as usize], repeats));
    }
}
