//! rustc as a judge: what it reads where the grammar gives a reading, and where
//! an added pair is left out. What is read in context 3 stands as the condition of an `if`.

use crate::commas::{self, Charts};
use crate::lists;
use crate::makers;
use crate::read::{self, Read};
use crate::trees::{self, Random, Structs};
use crate::written::written;
use model::chart::Chart;
use model::codes::{self, text, Token, CLOSE, DOT, LITERAL, MEMBER, OPEN};
use model::contexts::CONDITION;
use model::generate::Dice;
use model::rules::Rules;
use model::table::NodeTable;
use model::verdict;
use model::written::without_parens;
use readings::printed;
use std::time::Instant;

/// Texts in one file.
const BATCH: usize = 250;

/// The parser of rustc, and the context of what it reads.
struct Judge {
    context: u16,
    runs: u64,
}

impl Judge {
    fn new(context: u16) -> Self {
        Judge { context, runs: 0 }
    }

    /// What rustc reads for each text of one file, if it has no error.
    fn file(&mut self, texts: &[String]) -> Option<Vec<Read>> {
        self.runs += 1;
        let line = |text: &String| match self.context {
            CONDITION => format!("if {text} {{ }}\n"),
            _ => format!("let _ = {text} ;\n"),
        };
        let lines: String = texts.iter().map(line).collect();
        let printed = printed::of_source(&format!("fn f() {{\n{lines}}}\n"), "2021").ok()?;
        Some(read::all(&printed, self.context))
    }

    /// What rustc reads for each text, those with an error found by halving.
    fn all(&mut self, texts: &[String]) -> Vec<Read> {
        let read = printed::halved(texts, &mut |texts| self.file(texts));
        read.into_iter().map(|read| read.unwrap_or(Read::Error)).collect()
    }
}

/// How many of the texts rustc reads otherwise than as the tables beside them; the first ones
/// are printed.
#[cfg(feature = "library")]
pub fn otherwise(context: u16, texts: &[(String, Vec<u16>)]) -> u64 {
    let (mut judge, mut different) = (Judge::new(context), 0);
    for batch in texts.chunks(BATCH) {
        let spelled: Vec<String> = batch.iter().map(|(text, _)| text.clone()).collect();
        for ((text, table), read) in batch.iter().zip(judge.all(&spelled)) {
            if read != Read::Tree(table.clone()) {
                different += 1;
                if different <= 20 {
                    println!("  rustc reads {read:?}: {text}");
                }
            }
        }
    }
    different
}

/// Whether rustc refuses a list on purpose: a call without arguments of an await.
pub fn calls_await(tokens: &[Token]) -> bool {
    let call = codes::tokens(&[codes::AWAIT, OPEN, CLOSE]);
    tokens.windows(3).any(|window| window == call)
}

/// Lists with the tree that rustc must read, gathered until a batch is full.
struct Judged {
    judge: Judge,
    waiting: Vec<(Vec<Token>, Vec<u16>)>,
    agreed: u64,
    /// Lists without a reading that rustc reads as a tree that is not plain.
    not_plain: u64,
    /// Calls of an await, which rustc refuses, and those that it does not.
    refused_awaits: u64,
    read_awaits: u64,
    different: u64,
}

impl Judged {
    fn new(context: u16) -> Self {
        Judged {
            judge: Judge::new(context),
            waiting: Vec::new(),
            agreed: 0,
            not_plain: 0,
            refused_awaits: 0,
            read_awaits: 0,
            different: 0,
        }
    }

    fn differs(&mut self, tokens: &[Token], read: &Read) {
        self.different += 1;
        if self.different <= 20 {
            println!("  rustc reads {read:?}: {}", text(tokens));
        }
    }

    /// A list that must be read as a tree.
    fn list(&mut self, tokens: Vec<Token>, table: Vec<u16>) {
        if calls_await(&tokens) {
            // Some are tried, one at a time.
            if self.refused_awaits + self.read_awaits < 100 {
                match self.judge.all(&[text(&tokens)]).pop() {
                    Some(Read::Error) => self.refused_awaits += 1,
                    _ => self.read_awaits += 1,
                }
            }
            return;
        }
        self.waiting.push((tokens, table));
        if self.waiting.len() == BATCH {
            self.judged();
        }
    }

    fn judged(&mut self) {
        let waiting = std::mem::take(&mut self.waiting);
        let texts: Vec<String> = waiting.iter().map(|(tokens, _)| text(tokens)).collect();
        let read = self.judge.all(&texts);
        for ((tokens, table), read) in waiting.into_iter().zip(read) {
            if read == Read::Tree(table) {
                self.agreed += 1;
            } else {
                self.differs(&tokens, &read);
            }
        }
    }

    /// A list without a reading, which must be an error or a tree that is not plain.
    fn error(&mut self, tokens: &[Token]) {
        match self.judge.all(&[text(tokens)]).pop() {
            Some(Read::Error) => self.agreed += 1,
            Some(Read::Other(_)) => self.not_plain += 1,
            read => self.differs(tokens, &read.expect("an answer")),
        }
    }

    fn print(mut self, name: &str, start: Instant) -> u64 {
        self.judged();
        println!(
            "{name}, context {}: agreed {}, read as a tree that is not plain {}, different {}; calls of an await \
             tried and refused {}, read {}; rustc ran {} times, {} s",
            self.judge.context,
            self.agreed,
            self.not_plain,
            self.different,
            self.refused_awaits,
            self.read_awaits,
            self.judge.runs,
            start.elapsed().as_secs(),
        );
        self.different + self.read_awaits
    }
}

/// What is judged: in which context, how many random trees, and how many texts one at a time.
#[derive(Copy, Clone)]
pub struct Asked {
    pub context: u16,
    pub trees: u64,
    pub pairs: u64,
    pub seed: u64,
}

impl Asked {
    fn judged(self) -> Judged {
        Judged::new(self.context)
    }

    /// The sets of its context, so many nodes smaller than they could be.
    fn sets(self, smaller: usize) -> impl Iterator<Item = trees::Set> {
        trees::sets(smaller).into_iter().filter(move |set| set.context == self.context)
    }

    /// The random trees of its context: those without Structs, and a quarter as many with
    /// them; in a condition all have Structs.
    fn random(self, seed: u64, trees: u64) -> Vec<Random> {
        let random = |structs, trees| Random { structs, seed, trees, most_tokens: 40 };
        match self.context {
            CONDITION => vec![random(Structs::In(CONDITION), trees)],
            context => {
                vec![random(Structs::Without, trees), random(Structs::In(context), trees / 4)]
            }
        }
    }
}

/// All trees of few nodes and random ones; left-out pairs, those without a reading
/// one at a time; random lists that have a reading. Gives how many differ.
pub fn compare(asked: Asked) -> u64 {
    let Asked { context, trees, pairs, seed } = asked;
    let mut chart = Chart::new(Rules::new(None));
    let mut different = 0;
    for set in asked.sets(2 - usize::from(context == CONDITION)) {
        let (mut judged, start) = (asked.judged(), Instant::now());
        set.each(|tree| judged.list(written(tree).tokens, without_parens(tree)));
        different += judged.print(&format!("trees, {}", set.words()), start);
    }
    for random in asked.random(seed, trees / 4) {
        let (mut judged, start) = (asked.judged(), Instant::now());
        random.each(|tree| judged.list(written(tree).tokens, without_parens(tree)));
        different += judged.print(&format!("trees, {}", random.words()), start);
    }

    let (mut others, mut errors, start) = (asked.judged(), asked.judged(), Instant::now());
    let (mut left_out, mut same) = (0, 0);
    let mut leave_out = |tree: &NodeTable, most: u64| {
        let written = written(tree);
        let meant = without_parens(tree);
        for &pair in &written.pairs {
            let tokens = written.without(pair);
            chart.read(&tokens);
            match chart.readings(context).pop() {
                Some(reading) if reading == meant => same += 1,
                Some(reading) => others.list(tokens, reading),
                None if errors.judge.runs < most => errors.error(&tokens),
                None => continue,
            }
            left_out += 1;
        }
    };
    for set in asked.sets(2) {
        set.each(|tree| leave_out(tree, pairs / 2));
    }
    for random in asked.random(seed + 1, pairs / 4) {
        random.each(|tree| leave_out(tree, pairs));
    }
    println!("left-out pairs {left_out}, of which with the same reading {same}");
    different += same;
    different += others.print("left-out pairs, read as another tree", start);
    different += errors.print("left-out pairs, without a reading", start);

    let make = |index| makers::random(&mut Dice::new(seed + 2, index), seed + 2, 40);
    different + random(asked, &mut chart, "random lists", (0..trees).map(make))
}

/// Lists that have a reading; and, one at a time, half as many as are asked for of those that
/// have none, in a condition only such as hold a Struct.
fn random(
    asked: Asked,
    chart: &mut Chart,
    name: &str,
    lists: impl Iterator<Item = Vec<Token>>,
) -> u64 {
    let (mut judged, mut errors, start) = (asked.judged(), asked.judged(), Instant::now());
    for tokens in lists {
        match verdict::of(chart, asked.context, &tokens) {
            Ok(Ok(table)) => judged.list(tokens, table),
            Ok(Err(15))
                if errors.judge.runs < asked.pairs / 2
                    && lists::tells(asked.context, &tokens)
                    && is_as_spelled(&tokens) =>
            {
                errors.error(&tokens);
            }
            _ => {}
        }
    }
    let different = judged.print(&format!("{name} that have a reading"), start);
    different + errors.print(&format!("{name} without a reading"), start)
}

/// Commas before what closes something: plain trees with commas after last items, each
/// choice of lists in turn; all short lists that have a reading with their commas, and one
/// at a time those that have one without their commas alone; random lists. Gives how many
/// differ.
pub fn commas(asked: Asked) -> u64 {
    let Asked { context, trees, seed, .. } = asked;
    let mut different = 0;
    let each = |judged: &mut Judged, tree: &NodeTable| {
        let meant = without_parens(tree);
        commas::each_choice(tree, 3, |tokens| judged.list(tokens, meant.clone()));
    };
    for set in asked.sets(1) {
        let (mut judged, start) = (asked.judged(), Instant::now());
        set.each(|tree| each(&mut judged, tree));
        different += judged.print(&format!("trees with commas, {}", set.words()), start);
    }
    for random in asked.random(seed, trees / 4) {
        let (mut judged, start) = (asked.judged(), Instant::now());
        random.each(|tree| each(&mut judged, tree));
        different += judged.print(&format!("trees with commas, {}", random.words()), start);
    }

    let (mut judged, mut errors, start) = (asked.judged(), asked.judged(), Instant::now());
    let mut charts = Charts::new(None);
    for (_, codes, most) in lists::sets(2) {
        let most = most + commas::LONGER;
        commas::each_list(&mut charts, &codes, most, false, &mut |charts| {
            let tokens = charts.chart.tokens();
            if charts.is_read(context) {
                judged.list(tokens.to_vec(), charts.chart.readings(context).swap_remove(0));
            } else if charts.is_nearly_read(context) && is_as_spelled(tokens) {
                errors.error(tokens);
            }
        });
    }
    different += judged.print("short lists with such a comma that have a reading", start);
    different += errors.print("short lists that have one without their commas alone", start);

    let make = |index| makers::with_commas(&mut Dice::new(seed + 3, index), seed + 3, 40);
    let lists = (0..trees).map(make);
    different + random(asked, &mut charts.chart, "random lists with commas put in", lists)
}

/// Whether a list means to rustc what it means here: `&&` before an operand is two
/// references to it, `>>`, `>=` and `>>=` may close type arguments, and a numbered member
/// is a literal too.
fn is_as_spelled(tokens: &[Token]) -> bool {
    let otherwise = |token: &Token| matches!(token.code, 5 | 11 | 16 | 27);
    let apart = |window: &[Token]| match [window[0].code, window[1].code] {
        [before, MEMBER] => before != DOT,
        [before, LITERAL] => before == DOT,
        _ => false,
    };
    let first = tokens.first().is_none_or(|token| token.code == MEMBER);
    !(first || tokens.iter().any(otherwise) || tokens.windows(2).any(apart))
}
