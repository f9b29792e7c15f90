//! How many files there were, and what came of them.

use model::sizes::{LAST_REFUSAL, MOST_NODES};
use model::NodeTable;

#[derive(Default)]
pub struct Counts {
    pub files: u64,
    /// Accepted at 0, refused at the number of the refusal.
    replies: [u64; LAST_REFUSAL as usize + 1],
    /// Accepted ones with the most nodes.
    largest: u64,
    different: u64,
    /// The shortest file with a difference, and what it is.
    shortest: Option<(Vec<u8>, String)>,
}

impl Counts {
    /// Counts a file with what is stated of it, and whether we answer just that. The answer is
    /// the reply that is stated.
    pub fn count(
        &mut self,
        file: &[u8],
        stated: &Result<NodeTable, u16>,
        is_same: bool,
        what: &str,
    ) -> u16 {
        let reply = stated.as_ref().map_or_else(|&refusal| refusal, |_| 0);
        self.files += 1;
        self.replies[usize::from(reply)] += 1;
        let is_largest = |table: &NodeTable| usize::from(table.count) == MOST_NODES;
        self.largest += u64::from(stated.as_ref().is_ok_and(is_largest));
        if !is_same {
            self.different += 1;
            if self.shortest.as_ref().is_none_or(|(old, _)| file.len() < old.len()) {
                self.shortest = Some((file.to_vec(), what.to_string()));
            }
        }
        reply
    }

    /// Prints the counts; the answer is how many files differ.
    pub fn finish(self) -> u64 {
        let [accepted, refused @ ..] = &self.replies;
        println!("{} files, {accepted} accepted, {} of the most nodes", self.files, self.largest);
        let refused: Vec<String> = (1..)
            .zip(refused)
            .filter(|(_, &files)| files > 0)
            .map(|(refusal, files)| format!("{refusal}: {files}"))
            .collect();
        println!("refused by {}", refused.join(", "));
        println!("{} different", self.different);
        if let Some((file, what)) = self.shortest {
            println!("the shortest, {what}: {file:?}");
        }
        self.different
    }
}
