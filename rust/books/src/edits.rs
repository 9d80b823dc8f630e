//! Rules that arrive and leave (document 02, N11): what each call is given, with any record.

use crate::draft::{seal, Draft, BLOCK};
use crate::numbers;
use crate::random::Random;

/// The blocks that a book has before its rules.
pub const HEAD: usize = 4;

/// The most rules that a book has.
pub const RULES: usize = 32;

/// The bytes of a record: 36 blocks.
pub const BYTES: usize = (HEAD + RULES) * BLOCK;

/// A book at the front of 36 blocks, with its number of rules and the mask of idle ones beside.
#[derive(Clone, Debug, PartialEq, Eq)]
pub struct Record {
    /// The book, and what lies behind it.
    pub blocks: Box<[u8; BYTES]>,
    /// The number of rules.
    pub rules: u32,
    /// The mask.
    pub marks: u32,
}

/// What an arrival is given.
#[derive(Clone, Debug, PartialEq, Eq)]
pub struct Arrive {
    /// The record as it is before.
    pub record: Record,
    /// The block of the new rule.
    pub block: Vec<u8>,
}

/// What a departure is given.
#[derive(Clone, Debug, PartialEq, Eq)]
pub struct Depart {
    /// The record as it is before.
    pub record: Record,
    /// The number of the rule that leaves.
    pub rule: u32,
}

impl Record {
    /// A record with a book at its front, zero bytes behind it and a zero mask. Of a longer book the front alone.
    pub fn of(book: &[u8]) -> Record {
        let mut blocks = Box::new([0; BYTES]);
        let length = book.len().min(BYTES);
        blocks[..length].copy_from_slice(&book[..length]);
        Record {
            blocks,
            rules: (length / BLOCK).saturating_sub(HEAD) as u32,
            marks: 0,
        }
    }

    /// The bytes of the book; none where the number of rules makes it too long.
    pub fn book(&self) -> Option<&[u8]> {
        let rules = Some(self.rules as usize).filter(|&rules| rules <= RULES)?;
        Some(&self.blocks[..BLOCK * (HEAD + rules)])
    }

    /// The block of a rule that is there.
    pub fn rule(&self, rule: usize) -> &[u8] {
        let start = BLOCK * (HEAD + rule);
        &self.blocks[start..start + BLOCK]
    }

    /// What lies behind the book.
    fn behind(&mut self) -> &mut [u8] {
        let rules = RULES.min(self.rules as usize);
        &mut self.blocks[BLOCK * (HEAD + rules)..]
    }
}

/// An arrival of the last rule of a book, sound or damaged, at the others; or of another rule or block.
pub fn arrive(random: &mut Random, draft: &Draft, book: &[u8]) -> Arrive {
    let rules = (book.len() / BLOCK).saturating_sub(HEAD + 1);
    let (front, block) = book.split_at(book.len().min(BLOCK * (HEAD + rules)));
    let mut record = Record::of(front);
    let mut block = block.to_vec();
    // A book without rules has no last one.
    if block.is_empty() {
        block = vec![5; BLOCK];
        seal(&mut block);
    }
    if random.chance(1, 8) {
        fill(random, &mut record, draft);
    }
    surround(random, &mut record);
    change_block(random, &record, &mut block);
    Arrive { record, block }
}

/// A departure from a book, sound or damaged: mostly of a rule that is there.
pub fn depart(random: &mut Random, draft: &Draft, book: &[u8]) -> Depart {
    let mut record = Record::of(book);
    if random.chance(1, 8) {
        fill(random, &mut record, draft);
    }
    let rules = record.rules as usize;
    let rule = match random.below(6) {
        0 => numbers::out_of_range(random, rules),
        _ => random.below(rules) as u32,
    };
    surround(random, &mut record);
    Depart { record, rule }
}

/// Adds rules of the draft that are there already, so that there are 30 to 32. The first one of the draft
/// comes most often: what is equal to another rule is idle.
fn fill(random: &mut Random, record: &mut Record, draft: &Draft) {
    let few = draft.rules.len().min(4);
    if few == 0 {
        return;
    }
    let until = random.between(RULES - 2, RULES);
    for rule in record.rules as usize..until {
        let block = draft.rules[random.below(few) * random.below(2)].block();
        let start = BLOCK * (HEAD + rule);
        record.blocks[start..start + BLOCK].copy_from_slice(&block);
        record.rules += 1;
    }
}

/// Half of the time it is a rule that is there, a block with a changed byte, or one of a wrong length.
fn change_block(random: &mut Random, record: &Record, block: &mut Vec<u8>) {
    let rules = (record.rules as usize).min(RULES);
    match random.below(8) {
        0 | 1 if rules > 0 => *block = record.rule(random.below(rules)).to_vec(),
        2 => *block = damaged(random, block),
        3 => {
            let length = random.one(&[0, 1, BLOCK - 1, BLOCK + 1, 2 * BLOCK]);
            block.resize(length, 0);
        }
        _ => {}
    }
}

/// A block with one byte changed, sealed again or not.
pub(crate) fn damaged(random: &mut Random, block: &[u8]) -> Vec<u8> {
    let mut block = block.to_vec();
    let bytes = random.one(&[70, 510, 512]);
    let byte = random.below(bytes.min(block.len()));
    if let Some(changed) = block.get_mut(byte) {
        *changed ^= 1 << random.below(8);
    }
    if random.chance(1, 2) && block.len() == BLOCK {
        seal(&mut block);
    }
    block
}

/// Gives a record any mask and bytes behind its book, and one time in eight a wrong number of rules.
fn surround(random: &mut Random, record: &mut Record) {
    let rule = record.rule(0).to_vec();
    let behind = record.behind();
    match random.below(3) {
        0 => behind.fill(0),
        // As a departure leaves it that moves rules down and clears nothing.
        1 => behind
            .chunks_mut(BLOCK)
            .for_each(|block| block.copy_from_slice(&rule)),
        _ => behind.fill_with(|| random.byte()),
    }
    record.marks = marks(random, record.rules);
    if random.chance(1, 8) {
        record.rules = wrong_number(random, record.rules);
    }
}

/// A mask: none, all, any bits, few bits, or those of the rules that are there.
fn marks(random: &mut Random, rules: u32) -> u32 {
    let any = random.bits() as u32;
    let few = any & random.bits() as u32 & random.bits() as u32;
    let there = u32::MAX.checked_shr(32 - rules.min(32)).unwrap_or(0);
    random.one(&[0, u32::MAX, any, few, any & there, there, !there])
}

/// One more or less, about the limit, or one that would be right if cut.
fn wrong_number(random: &mut Random, rules: u32) -> u32 {
    let high = 1 << random.between(8, 31);
    random.one(&[
        rules.saturating_sub(1),
        rules + 1,
        31,
        32,
        33,
        36,
        256 + rules,
        high + rules,
        u32::MAX,
    ])
}

#[cfg(test)]
mod tests {
    use super::*;
    use crate::valid::{self, Size};

    /// Records with room and without, with numbers that are too high, bytes behind and marks past the last rule.
    #[test]
    fn records_of_edits() {
        let mut random = Random::new(4);
        let mut seen = [0; 8];
        for _ in 0..1_000 {
            let draft = valid::draft(&mut random, Size::Small);
            let book = draft.bytes();
            let arrive = arrive(&mut random, &draft, &book);
            let depart = depart(&mut random, &draft, &book);
            let Record { rules, marks, .. } = depart.record;
            let mut behind = depart.record.clone();
            seen[0] += u32::from(arrive.record.rules == 31);
            seen[1] += u32::from(arrive.record.rules == 32);
            seen[2] += u32::from(arrive.record.rules > 32);
            seen[3] += u32::from(arrive.block.len() != BLOCK);
            seen[4] += u32::from(rules > 32);
            seen[5] += u32::from(rules <= 32 && depart.rule >= rules);
            seen[6] += u32::from(rules < 32 && marks >> rules != 0);
            seen[7] += u32::from(behind.behind().iter().any(|&byte| byte != 0));
        }
        assert!(seen.iter().all(|&n| n >= 15), "{seen:?}");
    }
}
