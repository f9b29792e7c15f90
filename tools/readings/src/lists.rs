//! Token lists: the verdict on each in both contexts, and our reader's beside it.

use crate::makers;
use crate::ours::Ours;
use model::chart::Chart;
use model::codes::{self, has_symbol, text, Token, CODES, NAME};
use model::contexts;
use model::generate::{Dice, SYMBOLS};
use model::rules::{Change, Rules};
use model::sizes::{LAST_CONTEXT, MOST_CELLS, NODE_CELLS};
use model::table::numbers;
use model::verdict::{self, Verdict};
use std::time::Instant;

/// One code for each kind of behaviour: `-`, `*`, `&&`, `&`, `<<`, `==`, `<`, `>`,
/// `+=`, `=`, `!`, `as`, name, dot, parentheses, brackets, comma, `?`, `_`, numbered
/// member, Struct.
const KINDS: [u16; 23] =
    [1, 2, 5, 8, 10, 12, 13, 17, 18, 28, 29, 31, 32, 34, 35, 36, 37, 38, 39, 40, 43, 44, 46];

/// `-`, `<`, `>`, `=`, `as`, name, dot, parentheses, brackets, comma.
const NARROW: [u16; 12] = [1, 13, 17, 28, 31, 32, 34, 35, 36, 37, 38, 39];

/// What types end in and what follows them: `&`, `<<`, `<`, `>`, `as`, name, comma,
/// parentheses.
const TYPES: [u16; 9] = [8, 10, 13, 17, 31, 32, 35, 36, 39];

/// What stands round a Struct: `-`, `==`, `as`, name, dot, parentheses, brackets, comma,
/// `?`, Struct.
const STRUCTS: [u16; 12] = [1, 12, 31, 32, 34, 35, 36, 37, 38, 39, 40, 46];

/// What came of a set of lists in a context.
#[derive(Default)]
pub struct Tally {
    pub context: u16,
    pub lists: u64,
    /// By reply: 0, 3, 12 to 16.
    pub replies: [u64; 17],
    pub different: u64,
    pub longest: usize,
    /// Of all lists and verdicts in their order.
    pub digest: u64,
    shown: Vec<(usize, String)>,
}

impl Tally {
    pub fn new(context: u16) -> Tally {
        Tally { context, ..Tally::default() }
    }

    /// One for each context in which lists are read.
    pub fn in_both() -> [Tally; 2] {
        contexts::PLAIN.map(Tally::new)
    }

    /// Holds our reader to a verdict; several readings are a difference of their own.
    pub fn list(
        &mut self,
        ours: &mut Ours,
        tokens: &[Token],
        verdict: Result<Verdict, Vec<Vec<u16>>>,
    ) {
        self.lists += 1;
        self.longest = self.longest.max(tokens.len());
        let verdict = match verdict {
            Ok(verdict) => verdict,
            Err(readings) => {
                return self.differs(&format!("{} readings", readings.len()), tokens);
            }
        };
        self.replies[usize::from(*verdict.as_ref().err().unwrap_or(&0))] += 1;
        self.digested(tokens.len() as u16);
        tokens.iter().flat_map(|token| token.cells()).for_each(|cell| self.digested(cell));
        match &verdict {
            Ok(table) => table.iter().for_each(|&cell| self.digested(cell)),
            Err(refusal) => self.digested(1_000 + refusal),
        }
        let lent = MOST_CELLS + self.lists as usize % 7;
        if let Some(ours) = ours.read(self.context, tokens, lent) {
            if ours != verdict {
                let reply = |verdict: &Verdict| verdict.as_ref().err().copied().unwrap_or(0);
                let what = format!("we reply {}, not {}", reply(&ours), reply(&verdict));
                self.differs(&what, tokens);
            }
        }
    }

    /// A list whose verdict is known from how it is put together.
    pub fn constructed(
        &mut self,
        chart: &mut Chart,
        ours: &mut Ours,
        tokens: &[Token],
        known: Verdict,
    ) {
        // The chart grows with the square of the length.
        if tokens.len() <= 1_000 {
            let found = verdict::of(chart, self.context, tokens);
            if found.as_ref() != Ok(&known) {
                self.differs(&format!("{found:?}, not {known:?}"), tokens);
            }
        }
        self.list(ours, tokens, Ok(known));
    }

    fn digested(&mut self, number: u16) {
        self.digest = (self.digest ^ u64::from(number)).wrapping_mul(0x0000_0100_0000_01B3);
        self.digest ^= self.digest >> 29;
    }

    pub fn differs(&mut self, what: &str, tokens: &[Token]) {
        self.different += 1;
        let mut spelled = text(tokens);
        spelled.truncate(200);
        self.shown.push((tokens.len(), format!("{what}: {spelled}")));
        self.shown.sort_by_key(|shown| shown.0);
        self.shown.truncate(3);
    }

    pub fn print(&self, name: &str, start: Instant) {
        println!(
            "{name}, context {}: lists {}, longest {}, read {}, by 14, 15, 16: {}, {}, {}; different \
             {}, digest {:016x}, {} s",
            self.context,
            self.lists,
            self.longest,
            self.replies[0],
            self.replies[14],
            self.replies[15],
            self.replies[16],
            self.different,
            self.digest,
            start.elapsed().as_secs(),
        );
        for (_, shown) in &self.shown {
            println!("  {shown}");
        }
    }
}

/// A code as it stands at a place of a list, with a symbol by its place if it may have one.
pub fn at_place(code: u16, place: usize) -> Token {
    const BY_PLACE: [u16; 9] = [1, 127, 128, 16_383, 16_384, 65_535, 2, 300, 0];
    Token::new(code, if has_symbol(code) { BY_PLACE[place % BY_PLACE.len()] } else { 0 })
}

/// Whether a list is gone through in a context where all lists are: in a condition only if it
/// holds a Struct, as it reads like elsewhere without one.
pub fn tells(context: u16, tokens: &[Token]) -> bool {
    context != contexts::CONDITION || tokens.iter().any(|token| token.code == codes::STRUCT)
}

/// All lists of up to so many tokens over some codes, in the order of their codes, with
/// symbols by their places.
pub fn each_list(chart: &mut Chart, codes: &[u16], length: usize, visit: &mut impl FnMut(&Chart)) {
    visit(chart);
    if length > 0 {
        for &code in codes {
            chart.push(at_place(code, chart.tokens().len()));
            each_list(chart, codes, length - 1, visit);
            chart.pop();
        }
    }
}

/// The sets that are gone through whole.
pub fn sets(smaller: usize) -> Vec<(String, Vec<u16>, usize)> {
    let every: Vec<u16> = (0..CODES).collect();
    let set = |name: &str, codes: &[u16], most: usize| {
        let most = most - smaller;
        (format!("{} {name}, up to {most} tokens", codes.len()), codes.to_vec(), most)
    };
    vec![
        set("codes", &every, 5),
        set("kinds", &KINDS, 6),
        set("narrow", &NARROW, 7),
        set("of types", &TYPES, 8),
        set("round a Struct", &STRUCTS, 7),
    ]
}

/// What is gone through: lists of so many tokens fewer, so many random ones by a seed, and
/// the rule that is changed for all of them.
#[derive(Copy, Clone)]
pub struct Asked {
    pub smaller: usize,
    pub lists: u64,
    pub seed: u64,
    pub change: Option<Change>,
}

/// Prints the tallies of a set in both contexts, and gives how many differ.
fn print_both(tallies: [Tally; 2], name: &str, start: Instant) -> u64 {
    tallies.iter().for_each(|tally| tally.print(name, start));
    tallies.iter().map(|tally| tally.different).sum()
}

/// All lists of few tokens, random ones, and constructed ones. Gives how many
/// differ.
pub fn compare(ours: &mut Ours, Asked { smaller, lists, seed, change }: Asked) -> u64 {
    let mut chart = Chart::new(Rules::new(change));
    let mut different = 0;
    for (name, codes, most) in sets(smaller) {
        let (mut tallies, start) = (Tally::in_both(), Instant::now());
        each_list(&mut chart, &codes, most, &mut |chart| {
            let tokens = chart.tokens();
            for tally in tallies.iter_mut().filter(|tally| tells(tally.context, tokens)) {
                tally.list(ours, tokens, verdict::verdict(chart, tally.context));
            }
        });
        different += print_both(tallies, &name, start);
    }
    for (most_tokens, lists) in [(40, lists), (200, lists / 40)] {
        let (mut tallies, start) = (Tally::in_both(), Instant::now());
        for index in 0..lists {
            let dice = &mut Dice::new(seed, index);
            let mut tokens = makers::random(dice, seed, most_tokens);
            makers::misplace_symbol(dice, &mut tokens);
            for tally in &mut tallies {
                tally.list(ours, &tokens, verdict::of(&mut chart, tally.context, &tokens));
            }
        }
        different += print_both(tallies, &format!("random, about {most_tokens} tokens"), start);
    }
    let (mut tallies, start) = (Tally::in_both(), Instant::now());
    for tally in &mut tallies {
        for (tokens, known) in makers::constructed(tally.context, seed) {
            tally.constructed(&mut chart, ours, &tokens, known);
        }
    }
    different += print_both(tallies, "constructed", start);
    let others = any_cells(ours, seed, lists / 10) + other_contexts(ours) + short_tables(ours);
    different + others + damaged_numbers(ours, seed)
}

/// Cells that are no token list, or one with another cell: an odd number of them, symbols
/// where there are none, codes that there are not.
fn any_cells(ours: &mut Ours, seed: u64, lists: u64) -> u64 {
    let mut chart = Chart::new(Rules::new(None));
    let (mut replies, mut different) = ([0u64; 17], 0);
    let mut cells = |ours: &mut Ours, cells: &[u16]| {
        for context in contexts::PLAIN {
            let verdict = verdict::of_cells(&mut chart, context, cells);
            let verdict = verdict.expect("at most one reading");
            replies[usize::from(*verdict.as_ref().err().unwrap_or(&0))] += 1;
            if ours.read_cells(context, cells, MOST_CELLS).is_some_and(|ours| ours != verdict) {
                different += 1;
                println!("  we read otherwise in context {context}: {cells:?}");
            }
        }
    };
    for index in 0..lists {
        let dice = &mut Dice::new(seed + 5, index);
        let mut list = codes::cells(&makers::random(dice, seed, 40));
        let any = dice.pick(&[0, 1, NAME, CODES - 1, CODES, 127, 128, 16_384, 65_535]);
        match dice.below(4) {
            0 => list.truncate(dice.below(list.len() + 1)),
            1 => list.insert(dice.below(list.len() + 1), any),
            2 => list.push(any),
            _ if list.is_empty() => {}
            _ => {
                let at = dice.below(list.len());
                list[at] = any;
            }
        }
        cells(ours, &list);
    }
    // Each symbol at each code, alone and behind a prefix; and half a token more.
    for code in 0..=CODES {
        for symbol in SYMBOLS {
            for list in [&[code, symbol][..], &[29, 0, code, symbol], &[code, symbol, NAME]] {
                cells(ours, list);
            }
        }
    }
    println!(
        "any cells, in both contexts: lists {}, read {}, by 14, 15, 16: {}, {}, {}; different {different}",
        replies.iter().sum::<u64>(),
        replies[0],
        replies[14],
        replies[15],
        replies[16],
    );
    different
}

/// The verdict on bytes on the standard input of the program `reading`: 14 for a context that
/// is malformed or missing, then what the context is refused by, then 14 for any other number
/// that is malformed.
fn of_bytes(chart: &mut Chart, bytes: &[u8]) -> Verdict {
    let first = bytes.split_inclusive(|byte| byte & 0x80 == 0).next();
    let Some(context) = first.and_then(cells_of).map(|cells| cells[0]) else {
        return Err(14);
    };
    if let Some(refusal) = verdict::before_tokens(context, MOST_CELLS) {
        return Err(refusal);
    }
    match cells_of(bytes) {
        Some(cells) => verdict::of_cells(chart, context, &cells[1..]).expect("at most one reading"),
        None => Err(14),
    }
}

/// Bytes on the standard input of the program `reading`, some with a malformed
/// number.
fn damaged_numbers(ours: &mut Ours, seed: u64) -> u64 {
    if ours.is_lent() || !ours.is_slow() {
        return 0;
    }
    let mut chart = Chart::new(Rules::new(None));
    let (mut malformed, mut different) = (0, 0);
    for index in 0..1_000 {
        let dice = &mut Dice::new(seed + 3, index);
        let context = dice.pick(&[0, 0, 0, 3, 3, 3, 1, 2, 4, 128, 65_535]);
        let cells = codes::cells(&makers::random(dice, seed, 40));
        let mut bytes = numbers([&context].into_iter().chain(&cells));
        let at = dice.below(bytes.len() + 1);
        let behind: &[u8] =
            dice.pick(&[&[0x80], &[0x80, 0], &[0xFF, 0xFF, 4], &[0xA0, 0], &[0x20]]);
        bytes.splice(at..at, behind.iter().copied());
        if dice.percent(3) {
            bytes.truncate(dice.below(3));
        }
        let verdict = of_bytes(&mut chart, &bytes);
        malformed += u64::from(cells_of(&bytes).is_none());
        if ours.read_file(&bytes) != Some(verdict) {
            different += 1;
            println!("  we read otherwise: {bytes:?}");
        }
    }
    println!("bytes: lists 1000, malformed {malformed}, different {different}");
    different
}

/// The numbers that bytes hold, none if one is malformed: a number is a run that
/// its first byte without the high bit ends.
fn cells_of(bytes: &[u8]) -> Option<Vec<u16>> {
    let number = |run: &[u8]| {
        let (&last, others) = run.split_last()?;
        if last & 0x80 != 0 || last == 0 && !others.is_empty() {
            return None;
        }
        let add =
            |value: u32, group: &u8| value.checked_mul(128)?.checked_add(u32::from(group & 0x7F));
        run.iter().rev().try_fold(0, add).and_then(|value| u16::try_from(value).ok())
    };
    bytes.split_inclusive(|byte| byte & 0x80 == 0).map(number).collect()
}

/// Other contexts than those in which lists are read meet 3 or 13 before anything else,
/// whatever the list and the table.
fn other_contexts(ours: &mut Ours) -> u64 {
    let lents: &[usize] =
        if ours.is_lent() { &[0, MOST_CELLS - 1, MOST_CELLS] } else { &[MOST_CELLS] };
    let (mut lists, mut different) = (0, 0);
    for context in [1, 2, LAST_CONTEXT + 1, 5, 127, 128, 32_768, 65_535] {
        let meant = Err(if context > LAST_CONTEXT { 3 } else { 13 });
        for &lent in lents {
            for list in [&[][..], &[32], &[46], &[35, 46, 36], &[0], &[CODES], &[36; 24_577]] {
                let list = codes::tokens(list);
                let odd = [&codes::cells(&list)[..], &[NAME]].concat();
                let replies =
                    [ours.read(context, &list, lent), ours.read_cells(context, &odd, lent)];
                for reply in replies.into_iter().flatten() {
                    lists += 1;
                    different += u64::from(reply != meant);
                }
            }
        }
    }
    println!("other contexts: lists {lists}, different {different}");
    different
}

/// A table of less than 4,096 nodes meets 12 before anything else but the context.
fn short_tables(ours: &mut Ours) -> u64 {
    if !ours.is_lent() {
        return 0;
    }
    let mut different = 0;
    for (context, lent) in contexts::PLAIN
        .into_iter()
        .flat_map(|context| [0, NODE_CELLS, MOST_CELLS - 1].map(|lent| (context, lent)))
    {
        for list in [&[][..], &[32], &[32, 0, 32], &[0], &[CODES], &[36; 24_577]] {
            let tokens = codes::tokens(list);
            different += u64::from(ours.read(context, &tokens, lent) != Some(Err(12)));
            different += u64::from(ours.read_cells(context, list, lent) != Some(Err(12)));
        }
    }
    println!("short tables: lists 72, different {different}");
    different
}
