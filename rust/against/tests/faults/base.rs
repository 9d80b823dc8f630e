//! Faults of the book check, Seal, Flows, Judge and Idle.

use crate::{Faulty, GOOD};
use against::engine::Idleness;
use against::Engine;
use books::draft::BLOCK;
use second::access::Access;
use second::path::Applied;
use second::{breaking, path, plan, reading, Refusal};
use std::collections::BTreeSet;

/// The faults, among them those of document 01's "Mistakes near at hand".
#[derive(Clone, Copy, Debug, PartialEq, Eq)]
pub enum Fault {
    NoPlaces,
    SealsChecksWithHighByteLast,
    ClearsWordsBeforeRefusing,
    CutsUserToAByte,
    CutsRuleToAByte,
    ClearsTheRestOfTheBuffer,
    LengthAfterRows,
    RawIsExcused,
    ConditionsAreProjections,
    LastOperationCounts,
    ComparesWithSingleRules,
    NeverIdle,
}

pub const FAULTS: [Fault; 12] = [
    Fault::NoPlaces,
    Fault::SealsChecksWithHighByteLast,
    Fault::ClearsWordsBeforeRefusing,
    Fault::CutsUserToAByte,
    Fault::CutsRuleToAByte,
    Fault::ClearsTheRestOfTheBuffer,
    Fault::LengthAfterRows,
    Fault::RawIsExcused,
    Fault::ConditionsAreProjections,
    Fault::LastOperationCounts,
    Fault::ComparesWithSingleRules,
    Fault::NeverIdle,
];

impl Faulty for Fault {
    fn check(&self, book: &[u8]) -> Result<u32, Refusal> {
        match self {
            Fault::NoPlaces => GOOD.check(book).map_err(|r| Refusal::of(r.number)),
            _ => GOOD.check(book),
        }
    }

    fn seal(&self, block: &mut [u8]) -> Result<(), Refusal> {
        GOOD.seal(block)?;
        if *self == Fault::SealsChecksWithHighByteLast {
            block.swap(510, 511);
        }
        Ok(())
    }

    fn flows(&self, book: &[u8], plan: &[u8], words: &mut [u64]) -> Result<(), Refusal> {
        match self {
            Fault::ClearsWordsBeforeRefusing => words.fill(0),
            Fault::LengthAfterRows if plan.len() > 256 => {
                GOOD.flows(book, &plan[..256], words)?;
            }
            _ => {}
        }
        GOOD.flows(book, plan, words)
    }

    fn judge(&self, book: &[u8], user: u32, plan: &[u8]) -> Result<u32, Refusal> {
        match self {
            Fault::CutsUserToAByte => GOOD.judge(book, user % 256, plan),
            Fault::RawIsExcused | Fault::ConditionsAreProjections | Fault::LastOperationCounts => {
                GOOD.judge(book, user, plan)?;
                Ok(self.judged(book, user as usize, plan))
            }
            _ => GOOD.judge(book, user, plan),
        }
    }

    fn idle(&self, book: &[u8], rule: u32, buffer: &mut [u8]) -> Idleness {
        let answer = match self {
            Fault::CutsRuleToAByte => GOOD.idle(book, rule % 256, buffer)?,
            _ => GOOD.idle(book, rule, buffer)?,
        };
        match (self, answer) {
            (Fault::ClearsTheRestOfTheBuffer, Ok(Some((_, rows)))) => {
                buffer[4 * rows as usize..].fill(0);
            }
            (Fault::NeverIdle, Ok(None)) => return Some(Ok(Some((0, 2)))),
            (Fault::ComparesWithSingleRules, Ok(None)) if !covered_by_one(book, rule) => {
                return Some(Ok(Some((0, 2))));
            }
            _ => {}
        }
        Some(answer)
    }
}

impl Fault {
    /// The mask of rules broken by the accesses that the fault makes of a plan.
    fn judged(&self, book: &[u8], user: usize, bytes: &[u8]) -> u32 {
        let mut book = reading::read(book).expect("it is accepted");
        let rows = plan::read(bytes, &book).expect("it is accepted");
        let mut accesses = path::accesses(&book, &rows);
        match self {
            Fault::RawIsExcused => {
                let all = accesses.clone();
                accesses.retain(|access| access.operation != 0 || !excused(&all, access));
            }
            Fault::LastOperationCounts if rows.len() < 13 => {
                accesses = last_operations(&mut book, &rows);
            }
            Fault::ConditionsAreProjections => {
                let projection = second::access::Action::Projection;
                accesses = accesses
                    .into_iter()
                    .map(|access| Access {
                        action: projection,
                        ..access
                    })
                    .collect();
            }
            _ => {}
        }
        let broken = breaking::broken(&book, user, &accesses);
        broken.into_iter().map(|r| 1 << r).sum()
    }
}

fn excused(all: &BTreeSet<Access>, raw: &Access) -> bool {
    all.iter()
        .any(|other| (other.action, other.leaf) == (raw.action, raw.leaf) && other.operation != 0)
}

/// The accesses when the functions that count on a path are read from its upper end.
fn last_operations(book: &mut second::book::Book, rows: &[plan::Row]) -> BTreeSet<Access> {
    let mut found = BTreeSet::new();
    for row in rows {
        let plan::Row::Output(a) = *row else { continue };
        for mut path in path::paths(rows, a) {
            path.applied = path.counting().map(Applied::OneRow).collect();
            path.applied.reverse();
            if let Some(leaf) = book.columns[path.column] {
                found.insert(Access {
                    action: second::access::Action::Projection,
                    leaf,
                    operation: path::operation(book, &path, leaf),
                });
            }
        }
    }
    let others = path::accesses(book, rows);
    let condition = |a: &Access| a.action == second::access::Action::Condition;
    found.extend(others.into_iter().filter(condition));
    found
}

fn covered_by_one(book: &[u8], rule: u32) -> bool {
    let (head, rules) = book.split_at(4 * BLOCK);
    let rules: Vec<&[u8]> = rules.chunks(BLOCK).collect();
    let this = rules[rule as usize];
    let mut others = (0..rules.len()).filter(|&other| other != rule as usize);
    others.any(|other| {
        let two = [head, this, rules[other]].concat();
        GOOD.idle(&two, 0, &mut [0; 36]) == Some(Ok(None))
    })
}
