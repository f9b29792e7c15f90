//! What the comparisons notice: each rule changed, one after the other.

use crate::lists;
use crate::makers;
use crate::ours::Ours;
use crate::trees::{self, Random, Structs, Tally};
use model::chart::Chart;
use model::contexts;
use model::generate::Dice;
use model::rules::{Change, Rules};
use model::verdict;

/// How many plain trees, and how many lists, tell that a rule is changed.
fn noticed(change: Change) -> (u64, u64) {
    let mut changed = Chart::new(Rules::new(Some(change)));
    let mut tally = Tally::default();
    for set in trees::sets(2) {
        set.each(|tree| tally.tree(&mut changed, &mut Ours::Absent, tree));
    }
    for structs in Structs::ALL {
        let random = Random { structs, seed: 1, trees: 1_000, most_tokens: 40 };
        random.each(|tree| tally.tree(&mut changed, &mut Ours::Absent, tree));
    }

    let mut chart = Chart::new(Rules::new(None));
    let mut different = 0;
    let mut list = |chart: &Chart, changed: &mut Chart| {
        changed.read(chart.tokens());
        let tells = |context: &u16| {
            verdict::verdict(chart, *context) != verdict::verdict(changed, *context)
        };
        different += u64::from(contexts::PLAIN.iter().any(tells));
    };
    for (_, codes, most) in lists::sets(2) {
        lists::each_list(&mut chart, &codes, most, &mut |chart| list(chart, &mut changed));
    }
    for index in 0..20_000 {
        chart.read(&makers::random(&mut Dice::new(1, index), 1, 40));
        list(&chart, &mut changed);
        chart.read(&makers::with_commas(&mut Dice::new(2, index), 2, 40));
        list(&chart, &mut changed);
    }
    (tally.different, different)
}

/// Prints what tells of each change, and gives how many changes nothing tells.
pub fn try_all(changes: impl Iterator<Item = Change>) -> u64 {
    let mut counts = [0u64; 4];
    for change in changes {
        let (trees, lists) = noticed(change);
        println!("{change:?}: differences in trees {trees}, in lists {lists}");
        counts[2 * usize::from(trees == 0) + usize::from(lists == 0)] += 1;
    }
    let [both, trees, lists, neither] = counts;
    println!(
        "changes {}: told by trees and lists {both}, by trees alone {trees}, by lists alone {lists}, \
         by neither {neither}",
        both + trees + lists + neither,
    );
    neither
}
