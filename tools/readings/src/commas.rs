//! Commas straight before what closes something: the readings of a list with such commas
//! beside those of document 01's rule, commas between items only, and our reader beside
//! them, in both contexts.
//!
//! A list with an item put behind each of its commas says by that rule whether all of them
//! follow a last item; if so, the list has the readings of the list without these commas,
//! and otherwise none.

use crate::lists::{self, Asked, Tally};
use crate::makers;
use crate::ours::Ours;
use crate::trees::{self, Random, Structs};
use crate::written::with_commas;
use model::chart::Chart;
use model::codes::{Token, COMMA};
use model::commas::{before_closing, closes, item_before};
use model::contexts;
use model::generate::Dice;
use model::rules::{Change, Rules};
use model::table::NodeTable;
use model::verdict;
use model::written::{last_links, without_parens};
use std::time::Instant;

/// By how many tokens lists are longer than those of [`lists::sets`], where only lists are
/// gone through that hold such a comma.
pub const LONGER: usize = 1;

/// A list by three charts.
pub struct Charts {
    pub chart: Chart,
    /// By document 01's rule, with an item behind each such comma.
    with_items: Chart,
    /// By document 01's rule, without these commas.
    without: Chart,
}

impl Charts {
    pub fn new(change: Option<Change>) -> Charts {
        let [with_items, without] =
            [(); 2].map(|()| Chart::new(Rules::new(Some(Change::CommasBetweenOnly))));
        Charts { chart: Chart::new(Rules::new(change)), with_items, without }
    }

    fn last(&self) -> Option<u16> {
        self.chart.tokens().last().map(|token| token.code)
    }

    pub fn push(&mut self, token: Token) {
        if self.last() == Some(COMMA) && closes(token.code) {
            self.with_items.push(item_before(token.code).into());
            self.without.pop();
        }
        self.chart.push(token);
        self.with_items.push(token);
        self.without.push(token);
    }

    pub fn pop(&mut self) {
        let code = self.last().expect("a token");
        self.chart.pop();
        self.with_items.pop();
        self.without.pop();
        if self.last() == Some(COMMA) && closes(code) {
            self.with_items.pop();
            self.without.push(COMMA.into());
        }
    }

    pub fn read(&mut self, tokens: &[Token]) {
        while self.last().is_some() {
            self.pop();
        }
        tokens.iter().for_each(|&token| self.push(token));
    }

    /// Whether the readings in a context are those that document 01's rule gives.
    fn agree(&self, context: u16) -> bool {
        match self.with_items.is_unread(context) {
            true => self.chart.is_unread(context),
            false => {
                !self.without.is_unread(context)
                    && self.chart.readings(context) == self.without.readings(context)
            }
        }
    }

    /// Whether the list has a reading in a context.
    pub fn is_read(&self, context: u16) -> bool {
        !self.chart.is_unread(context)
    }

    /// Whether the list has a reading there without its commas alone.
    pub fn is_nearly_read(&self, context: u16) -> bool {
        !self.is_read(context) && !self.without.is_unread(context)
    }
}

/// What came of a set of lists in a context.
#[derive(Default)]
struct Held {
    tally: Tally,
    /// Lists that have a reading by such commas.
    gained: u64,
    /// Lists that have a reading without their commas alone.
    nearly: u64,
    /// Lists whose readings are not those that document 01's rule gives.
    unlike: u64,
}

impl Held {
    fn new(context: u16) -> Held {
        Held { tally: Tally::new(context), ..Held::default() }
    }

    fn list(&mut self, charts: &Charts, ours: &mut Ours) {
        let (tokens, context) = (charts.chart.tokens(), self.tally.context);
        self.nearly += u64::from(charts.is_nearly_read(context));
        self.gained += u64::from(charts.is_read(context) && !before_closing(tokens).is_empty());
        if !charts.agree(context) {
            self.unlike += 1;
            self.tally.differs("not as with an item behind each comma", tokens);
        }
        self.tally.list(ours, tokens, verdict::verdict(&charts.chart, context));
    }

    /// Prints the set and gives how many differ.
    fn print(&self, name: &str, start: Instant) -> u64 {
        self.tally.print(name, start);
        println!(
            "  read by such commas {}, read without them alone {}, unlike {}",
            self.gained, self.nearly, self.unlike
        );
        self.tally.different
    }
}

/// What came of a set of lists, in both contexts.
struct Both([Held; 2]);

impl Both {
    fn new() -> Both {
        Both(contexts::PLAIN.map(Held::new))
    }

    fn list(&mut self, charts: &Charts, ours: &mut Ours) {
        let tells = |held: &&mut Held| lists::tells(held.tally.context, charts.chart.tokens());
        self.0.iter_mut().filter(tells).for_each(|held| held.list(charts, ours));
    }

    fn print(&self, name: &str, start: Instant) -> u64 {
        self.0.iter().map(|held| held.print(name, start)).sum()
    }
}

/// All lists of up to so many tokens over some codes, behind the tokens of the charts, that
/// hold a comma straight before what closes something; all of them if one is `held` already.
pub fn each_list(
    charts: &mut Charts,
    codes: &[u16],
    length: usize,
    held: bool,
    visit: &mut impl FnMut(&Charts),
) {
    if held {
        visit(charts);
    }
    for &code in codes {
        let held = held || charts.last() == Some(COMMA) && closes(code);
        // How many tokens more there must be.
        let wanted = if held { 0 } else { 2 - usize::from(code == COMMA) };
        if length > wanted {
            charts.push(lists::at_place(code, charts.chart.tokens().len()));
            each_list(charts, codes, length - 1, held, visit);
            charts.pop();
        }
    }
}

/// Every choice, but none, of the first links, up to so many of them.
fn choices(links: &[u16], most: usize) -> impl Iterator<Item = Vec<u16>> + '_ {
    let links = &links[..links.len().min(most)];
    let chosen = |bits: u32| {
        let is_chosen = move |at: &usize| bits >> at & 1 == 1;
        (0..links.len()).filter(is_chosen).map(|at| links[at]).collect()
    };
    (1..1 << links.len()).map(chosen)
}

/// The tokens of a plain tree with a comma after the last item of some of its lists: each
/// choice of its first lists, up to so many of them, and all lists if there are more.
pub fn each_choice(tree: &NodeTable, most: usize, mut visit: impl FnMut(Vec<Token>)) {
    let links = last_links(tree);
    choices(&links, most).for_each(|chosen| visit(with_commas(tree, &chosen)));
    if links.len() > most {
        visit(with_commas(tree, &links));
    }
}

/// So many lists of a tree are chosen from.
const MOST_LISTS: usize = 4;

/// Holds a plain tree with commas to the tree without its own parentheses.
fn tree(held: &mut Held, charts: &mut Charts, ours: &mut Ours, tree: &NodeTable) {
    let meant = without_parens(tree);
    each_choice(tree, MOST_LISTS, |tokens| {
        charts.read(&tokens);
        if charts.chart.readings(tree.context) != [&meant[..]] {
            held.tally.differs("another reading than the tree", &tokens);
        }
        held.list(charts, ours);
    });
}

/// All lists of few tokens that hold such commas; all lists of fewer tokens; random lists
/// with commas put in; plain trees with commas after last items; and constructed lists.
/// Gives how many differ.
pub fn compare(ours: &mut Ours, Asked { smaller, lists, seed, change }: Asked) -> u64 {
    let mut charts = Charts::new(change);
    let mut different = 0;
    for (name, codes, most) in lists::sets(smaller) {
        let (mut held, start) = (Both::new(), Instant::now());
        let most = most + LONGER;
        each_list(&mut charts, &codes, most, false, &mut |charts| held.list(charts, ours));
        different += held.print(&format!("{name} and {LONGER}, with such a comma"), start);
    }
    let (mut held, start) = (Both::new(), Instant::now());
    for (_, codes, most) in lists::sets(smaller.max(1) + 1) {
        each_list(&mut charts, &codes, most, true, &mut |charts| held.list(charts, ours));
    }
    different += held.print("all lists of the sets of fewer tokens", start);
    for (most_tokens, lists) in [(40, lists), (200, lists / 40)] {
        let (mut held, start) = (Both::new(), Instant::now());
        for index in 0..lists {
            let tokens = makers::with_commas(&mut Dice::new(seed, index), seed, most_tokens);
            charts.read(&tokens);
            held.list(&charts, ours);
        }
        let name = format!("random with commas put in, about {most_tokens} tokens");
        different += held.print(&name, start);
    }
    for set in trees::sets(1 + smaller) {
        let (mut held, start) = (Held::new(set.context), Instant::now());
        set.each(|plain| tree(&mut held, &mut charts, ours, plain));
        different += held.print(&format!("trees, {}", set.words()), start);
    }
    for structs in Structs::ALL {
        let (mut held, start) = (Held::new(structs.context()), Instant::now());
        let random = Random { structs, seed, trees: lists / 20, most_tokens: 40 };
        random.each(|plain| tree(&mut held, &mut charts, ours, plain));
        different += held.print(&format!("trees, {}", random.words()), start);
    }
    for mut tally in Tally::in_both() {
        let start = Instant::now();
        for (tokens, known) in makers::constructed_with_commas(seed) {
            tally.constructed(&mut charts.chart, ours, &tokens, known);
        }
        tally.print("constructed with commas", start);
        different += tally.different;
    }
    different
}
