//! Lists of edits from a book without rules and a zero mask (document 02, N11).

use crate::case::Case;
use crate::draft::{Draft, BLOCK};
use crate::edits::{damaged, Arrive, Depart, Record, RULES};
use crate::numbers;
use crate::random::Random;
use crate::valid::{self, Size};

/// An edit of a list.
#[derive(Clone, Debug, PartialEq, Eq)]
pub enum Edit {
    /// A rule arrives, with its block.
    Arrive(Vec<u8>),
    /// A rule leaves, by its number.
    Depart(u32),
}

impl Edit {
    /// The edit with a record.
    pub fn with(&self, record: &Record) -> Case {
        let record = record.clone();
        match self {
            Edit::Arrive(block) => {
                let block = block.clone();
                Case::Arrive(Arrive { record, block })
            }
            Edit::Depart(rule) => Case::Depart(Depart {
                record,
                rule: *rule,
            }),
        }
    }
}

/// A list of edits, and the book without rules from which it starts.
#[derive(Clone, Debug, PartialEq, Eq)]
pub struct EditList {
    /// The book without rules.
    pub head: Vec<u8>,
    /// The edits.
    pub edits: Vec<Edit>,
}

/// A list of some edits. One in eight goes up to 32 rules and past them, of few that are different.
pub fn list(random: &mut Random, size: Size) -> EditList {
    let draft = valid::draft(random, size);
    let mut pool: Vec<Vec<u8>> = draft.rules.iter().map(|rule| rule.block()).collect();
    let (mut edits, mut rules) = (vec![], 0);
    if !pool.is_empty() && random.chance(1, 8) {
        pool.truncate(3);
        while rules < RULES {
            edits.push(edit(random, &pool, &mut rules, 15));
        }
    }
    // More arrive than leave, then as many leave as arrive.
    for often in [12, 8] {
        let more = random.between(5, 12);
        edits.extend((0..more).map(|_| edit(random, &pool, &mut rules, often)));
    }
    EditList {
        head: head(draft),
        edits,
    }
}

/// An arrival so often of sixteen times, else a departure.
fn edit(random: &mut Random, pool: &[Vec<u8>], rules: &mut usize, often: usize) -> Edit {
    match random.chance(often, 16) {
        true => arrival(random, pool, rules),
        false => departure(random, rules),
    }
}

/// The book without its rules.
fn head(draft: Draft) -> Vec<u8> {
    draft.with_rules(&[]).bytes()
}

/// Mostly a rule of the pool, else a block that is damaged or of a wrong length.
fn arrival(random: &mut Random, pool: &[Vec<u8>], rules: &mut usize) -> Edit {
    let Some(block) = pool.get(random.below(pool.len())) else {
        return Edit::Arrive(random.bytes(BLOCK));
    };
    let mut block = block.clone();
    match random.below(16) {
        0 => block = damaged(random, &block),
        1 => block.truncate(random.one(&[0, BLOCK - 1])),
        _ => *rules = RULES.min(*rules + 1),
    }
    Edit::Arrive(block)
}

/// Mostly of a rule that is there.
fn departure(random: &mut Random, rules: &mut usize) -> Edit {
    if *rules == 0 || random.chance(1, 12) {
        return Edit::Depart(numbers::out_of_range(random, *rules));
    }
    let rule = random.below(*rules) as u32;
    *rules -= 1;
    Edit::Depart(rule)
}

#[cfg(test)]
mod tests {
    use super::*;

    /// Lists with departures of the first, the last and others, and more than 32 arrivals in some.
    #[test]
    fn edits_of_lists() {
        let mut random = Random::new(5);
        let [mut departures, mut long] = [0; 2];
        for _ in 0..200 {
            let list = list(&mut random, Size::Tiny);
            let arrives = |edit: &&Edit| matches!(edit, Edit::Arrive(_));
            let arrivals = list.edits.iter().filter(arrives).count();
            departures += list.edits.len() - arrivals;
            long += usize::from(arrivals > RULES);
            assert_eq!(list.head.len(), 4 * BLOCK);
        }
        assert!(departures > 500 && long > 10, "{departures}, {long}");
    }
}
