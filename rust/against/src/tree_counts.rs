//! What was reached of Tree.

use crate::answer::Answer;
use books::trees::{extents, Tree, MOST};
use second::{plan, reading, tree};
use std::collections::BTreeSet;
use std::fmt;

/// How often each thing happened.
#[derive(Clone, Debug, Default, PartialEq, Eq)]
pub struct TreeCounts {
    /// Trees that were written.
    pub written: u64,
    /// Of these, those with a row that is reached twice.
    pub twice: u64,
    /// Those of 4,096 nodes.
    pub full: u64,
    /// Those whose text is exactly as long as the buffer.
    pub exact: u64,
    /// The nodes of the largest.
    pub most: u64,
    /// The levels of the deepest, the top among them.
    pub levels: u64,
    /// Refused as the row is absent.
    pub absent: u64,
    /// Refused as the row is an Output or a Condition.
    pub no_value: u64,
    /// Refused for the nodes alone: the text would fit.
    pub by_nodes: u64,
    /// Of these, those of 4,097 nodes.
    pub one_above: u64,
    /// Refused for the buffer alone: the nodes are not too many.
    pub by_room: u64,
    /// Of these, those whose buffer is one byte short.
    pub one_short: u64,
    /// Refused for both.
    pub by_both: u64,
}

impl TreeCounts {
    /// Counts a call and the answer to it.
    pub fn count(&mut self, given: &Tree, answer: Answer) {
        match answer {
            Answer::Written(_) => self.count_written(given),
            Answer::Refused(refusal) if refusal.number == 29 => {
                let absent = given.row as usize >= given.plan.len() / 4;
                self.absent += u64::from(absent);
                self.no_value += u64::from(!absent);
            }
            Answer::Refused(refusal) if refusal.number == 30 => self.count_large(given),
            _ => {}
        }
    }

    fn count_written(&mut self, given: &Tree) {
        let Some(tree) = drawn(given) else { return };
        let lines = tree.lines();
        let rows: BTreeSet<usize> = lines.iter().map(|&(_, row)| row).collect();
        let levels = lines.iter().map(|&(level, _)| level as u64 + 1);
        self.written += 1;
        self.twice += u64::from(rows.len() < lines.len());
        self.full += u64::from(lines.len() as u128 == MOST);
        self.exact += u64::from(tree.text().len() == given.lent);
        self.most = self.most.max(lines.len() as u64);
        self.levels = levels.fold(self.levels, u64::max);
    }

    fn count_large(&mut self, given: &Tree) {
        let extents = extents(&given.plan);
        let Some(Some(extent)) = extents.get(given.row as usize) else {
            return;
        };
        let lent = given.lent as u128;
        match (extent.nodes > MOST, extent.bytes > lent) {
            (true, true) => self.by_both += 1,
            (true, false) => {
                self.by_nodes += 1;
                self.one_above += u64::from(extent.nodes == MOST + 1);
            }
            _ => {
                self.by_room += 1;
                self.one_short += u64::from(extent.bytes == lent + 1);
            }
        }
    }

    /// What is to be reached more than once or twice.
    pub fn often(&self) -> [u64; 11] {
        [
            self.written,
            self.twice,
            self.full,
            self.exact,
            self.absent,
            self.no_value,
            self.by_nodes,
            self.one_above,
            self.by_room,
            self.one_short,
            self.by_both,
        ]
    }
}

/// The tree of a call that is not refused.
fn drawn(given: &Tree) -> Option<tree::Node> {
    let book = reading::read(&given.book).ok()?;
    let rows = plan::read(&given.plan, &book).ok()?;
    tree::of(&rows, given.row as usize)
}

impl fmt::Display for TreeCounts {
    fn fmt(&self, f: &mut fmt::Formatter<'_>) -> fmt::Result {
        write!(
            f,
            "trees: {} written ({} with a row reached twice, {} of 4,096 nodes, {} as long as the buffer; \
             at most {} nodes, {} levels), 29 for {} absent rows and {} of kind 4 or 5, 30 for {} by their \
             nodes alone ({} of 4,097), {} by the buffer alone ({} for one byte), {} by both",
            self.written,
            self.twice,
            self.full,
            self.exact,
            self.most,
            self.levels,
            self.absent,
            self.no_value,
            self.by_nodes,
            self.one_above,
            self.by_room,
            self.one_short,
            self.by_both
        )
    }
}
