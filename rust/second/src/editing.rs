//! Rules that arrive and leave, and the marks of the idle ones (document 02, N11).

use crate::block::SIZE;
use crate::book::Book;
use crate::idle::{self, Found};
use crate::reading;
use crate::refusal::*;
use std::collections::BTreeSet;

/// The blocks that every book has before its rules.
const HEAD: usize = 4;

/// The most rules that a book has.
const MOST: usize = 32;

/// The bytes of "a record of 36 blocks".
pub const BYTES: usize = 36 * SIZE;

/// "The book lies at the front of a record of 36 blocks, zero bytes behind it, with its number of rules
/// beside"; and beside both "a mask of idle rules".
#[derive(Clone, Debug, PartialEq, Eq)]
pub struct Record {
    /// The book, and what lies behind it.
    pub blocks: Box<[u8; BYTES]>,
    /// The number of rules.
    pub rules: u32,
    /// The mask: bit r for rule r.
    pub marks: u32,
}

/// A search for a rule: what Idle finds, or nothing where it is given up.
pub type Search<'a> = &'a dyn Fn(&Book, usize) -> Option<Found>;

/// An edit's reply, or why it is refused.
type Reply = Result<u32, Refusal>;

/// A rule arrives at the end of the book. It "replies with the new mask".
pub fn arrive(record: &mut Record, block: &[u8]) -> Reply {
    let reply = arrive_by(record, block, &to_the_end);
    reply.expect("no search is given up")
}

/// The same with a search that may be given up: then there is no reply, and nothing is changed.
pub fn arrive_by(record: &mut Record, block: &[u8], search: Search) -> Option<Reply> {
    let blocks = match with_new(record, block) {
        Ok(blocks) => blocks,
        Err(refusal) => return Some(Err(refusal)),
    };
    let book = match reading::read(&blocks.concat()) {
        Ok(book) => book,
        Err(refusal) => return Some(Err(refusal)),
    };
    let new = book.rules.len() - 1;
    let before = marked(record.marks);
    let mut after = BTreeSet::new();
    for rule in 0..=new {
        // "an arrival keeps the set marks of the rules already there", "every other mark is Idle's afresh"
        let kept = rule != new && before.contains(&rule);
        if kept || search(&book, rule)?.is_none() {
            after.insert(rule);
        }
    }
    Some(Ok(record.put(&blocks, &after)))
}

/// A rule leaves by its number, "later ones moving down". It "replies with the new mask".
pub fn depart(record: &mut Record, rule: u32) -> Reply {
    let reply = depart_by(record, rule, &to_the_end);
    reply.expect("no search is given up")
}

/// The same with a search that may be given up: then there is no reply, and nothing is changed.
pub fn depart_by(record: &mut Record, rule: u32, search: Search) -> Option<Reply> {
    let stay = match that_stay(record, rule) {
        Ok(stay) => stay,
        Err(refusal) => return Some(Err(refusal)),
    };
    let all = record.book().ok()?;
    let mut blocks = all[..HEAD].to_vec();
    blocks.extend(stay.iter().map(|&old| all[HEAD + old].clone()));
    let book = reading::read(&blocks.concat()).ok()?;
    let before = marked(record.marks);
    let mut after = BTreeSet::new();
    for (new, old) in stay.iter().enumerate() {
        // "and a departure the clear marks of those that stay", "every other mark is Idle's afresh"
        if before.contains(old) && search(&book, new)?.is_none() {
            after.insert(new);
        }
    }
    Some(Ok(record.put(&blocks, &after)))
}

fn to_the_end(book: &Book, rule: usize) -> Option<Found> {
    idle::within(book, rule, u64::MAX)
}

/// "an arrival at 32 rules or more is 33, tested first, then 1 for a block not of 512 bytes", else the blocks
/// of "the book with the new block".
fn with_new(record: &Record, block: &[u8]) -> Result<Vec<Vec<u8>>, Refusal> {
    if record.rules as usize >= MOST {
        return Err(Refusal::of(RULES_FULL));
    }
    if block.len() != SIZE {
        return Err(Refusal::of(BOOK_LENGTH));
    }
    let mut blocks = record.book()?;
    blocks.push(block.to_vec());
    Ok(blocks)
}

/// "a departure has the refusals of the book as it is, then 24", else the numbers of the rules that stay.
fn that_stay(record: &Record, rule: u32) -> Result<Vec<usize>, Refusal> {
    let book = reading::read(&record.book()?.concat())?;
    let mut stay: Vec<usize> = (0..book.rules.len()).collect();
    let leaves = stay.iter().position(|&number| number as u32 == rule);
    stay.remove(leaves.ok_or(Refusal::of(NO_RULE))?);
    Ok(stay)
}

/// The rules whose bits are set.
fn marked(marks: u32) -> BTreeSet<usize> {
    let rules = 0..MOST;
    rules.filter(|&rule| marks >> rule & 1 == 1).collect()
}

impl Record {
    /// The blocks of the book "at the front": "a number above 32 makes the book too long, refusal 1".
    fn book(&self) -> Result<Vec<Vec<u8>>, Refusal> {
        let rules = self.rules as usize;
        if rules > MOST {
            return Err(Refusal::of(BOOK_LENGTH));
        }
        let blocks = self.blocks.chunks(SIZE).take(HEAD + rules);
        Ok(blocks.map(<[u8]>::to_vec).collect())
    }

    /// Puts a book and its marks in place of what was there: "An accepted edit clears the bits past the last
    /// rule and the bytes behind the book".
    fn put(&mut self, blocks: &[Vec<u8>], marked: &BTreeSet<usize>) -> u32 {
        let book = blocks.concat();
        self.blocks.fill(0);
        self.blocks[..book.len()].copy_from_slice(&book);
        self.rules = (blocks.len() - HEAD) as u32;
        self.marks = marked.iter().map(|&rule| 2u32.pow(rule as u32)).sum();
        self.marks
    }
}
