//! The two callee orders on the same trees: at which nodes their rows differ, held against
//! what document 02's Paper 9 says of them.

use crate::Row;
use model::callee::{apart, below_groups, Apart};
use model::forms::{CALL, FIELD, GROUP};
use model::{table, NodeTable};

/// What was compared, and how often something else was found than is said.
#[derive(Copy, Clone, Default, Debug)]
pub struct Orders {
    pub trees: u64,
    pub calls: u64,
    /// Callees that get a pair in our order: numbered Fields, and Groups.
    pub fields: u64,
    pub groups: u64,
    /// Trees with such a callee.
    pub apart: u64,
    /// Rows below such callees, those of them that differ, and pairs that are gone there.
    pub below: u64,
    pub changed: u64,
    pub gone: u64,
    pub different: u64,
}

impl Orders {
    /// The rows of an accepted tree in the crate's order and in ours, for a root in the same
    /// context.
    pub fn compare(&mut self, tree: &NodeTable, crates: &[Row], ours: &[Row]) {
        let has_pair: Vec<bool> = crates.iter().map(|row| row.pair & 1 == 1).collect();
        let apart = apart(tree, &has_pair);
        self.trees += 1;
        self.apart += u64::from(apart.contains(&Apart::Callee));
        for (at, number) in (0..).zip(1..=tree.count) {
            self.count_call(tree, number, &has_pair);
            let [theirs, own] = [crates[at], ours[at]];
            let is_same_but_pair = Row { pair: own.pair, ..theirs } == own;
            let is_as_said = match apart[at] {
                Apart::Same => theirs == own,
                // It has a pair that it had not; all else depends on what stands above.
                Apart::Callee => {
                    let is_below = owner(tree, number).is_some_and(|at| apart[at] != Apart::Same);
                    let form = table::node(&tree.cells, number).form;
                    self.fields += u64::from(form == FIELD);
                    self.groups += u64::from(form == GROUP);
                    [theirs.pair, own.pair] == [0, 1] && (is_below || is_same_but_pair)
                }
                // Pairs only go.
                Apart::Below => {
                    self.below += 1;
                    self.changed += u64::from(theirs != own);
                    self.gone += u64::from(theirs.pair & !own.pair != 0);
                    own.pair & !theirs.pair == 0 && (own.pair ^ theirs.pair) & 2 == 0
                }
            };
            if !is_as_said {
                self.differs(&format!("{own:?} for {theirs:?} at node {number}"), tree);
            }
        }
    }

    /// A Group that is called has a pair in the crate's order just where a Field with outer
    /// attributes stands below it, if a named one does.
    fn count_call(&mut self, tree: &NodeTable, number: u16, has_pair: &[bool]) {
        let call = table::node(&tree.cells, number);
        if call.form != CALL {
            return;
        }
        self.calls += 1;
        let [callee, _] = call.operands;
        let below = below_groups(&tree.cells, callee);
        let is_group = table::node(&tree.cells, callee).form == GROUP;
        if is_group && below.form == FIELD && below.detail == 0 {
            let is_paired = has_pair[usize::from(callee) - 1];
            if is_paired != (below.attributes == 2) {
                self.differs(&format!("the Group at node {callee} has a pair: {is_paired}"), tree);
            }
        }
    }

    fn differs(&mut self, what: &str, tree: &NodeTable) {
        self.different += 1;
        println!("orders: {what}, of {tree:?}");
    }

    pub fn print(&self) {
        let Orders { trees, calls, fields, groups, apart, below, changed, gone, different } = self;
        println!("  both callee orders: trees {trees}, calls {calls}, different {different}");
        println!("    trees with another row {apart}; numbered fields {fields} and groups {groups} get a pair");
        println!("    rows below these {below}, changed {changed}, pairs gone {gone}");
    }
}

/// The place of a node's owner among the nodes, from 0 on.
fn owner(tree: &NodeTable, number: u16) -> Option<usize> {
    let owns = |owner: &u16| table::node(&tree.cells, *owner).operands.contains(&number);
    (1..number).find(owns).map(|owner| usize::from(owner) - 1)
}
