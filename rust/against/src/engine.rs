//! The engines that can be tried.

use crate::records;
use books::edits::Record;
use books::records::Records;
use books::trees::Tree;
#[cfg(feature = "engine")]
use pspec::raw;
use second::access::Action;
use second::blocked::Datum;
use second::book::Book;
use second::idle::Found;
use second::{idle, reading, Asked, Refusal};

/// What Idle answers: nothing where the engine gave up, else idle (`None`) or a user and rows.
pub type Idleness = Option<Result<Option<(u32, u32)>, Refusal>>;

/// What Blocked answers: nothing where the engine gave up, else the value as C has it, 0 for open. So
/// every bit of it is compared.
pub type Blocking = Option<Result<u32, Refusal>>;

/// What Culprits answers: nothing where the engine gave up, else the value as C has it, the asking rule
/// among the others and 0 for a rule that is not blocked.
pub type Causes = Option<Result<u32, Refusal>>;

/// What Ask answers where nothing is refused: the answer as C has it, 2^32 + the number of a held plan, or the
/// mask of a declined one. So every bit of it is compared.
pub type Reply = u64;

/// What an edit answers: nothing where the engine gave up, else the new mask.
pub type Marking = Option<Result<u32, Refusal>>;

/// The thirteen calls of an engine.
pub trait Engine {
    /// What it is called in reports.
    fn name(&self) -> &'static str;
    /// The book check.
    fn check(&self, book: &[u8]) -> Result<u32, Refusal>;
    /// Seal.
    fn seal(&self, block: &mut [u8]) -> Result<(), Refusal>;
    /// Flows.
    fn flows(&self, book: &[u8], plan: &[u8], words: &mut [u64]) -> Result<(), Refusal>;
    /// Judge.
    fn judge(&self, book: &[u8], user: u32, plan: &[u8]) -> Result<u32, Refusal>;
    /// Idle.
    fn idle(&self, book: &[u8], rule: u32, buffer: &mut [u8]) -> Idleness;
    /// Blocked.
    fn blocked(&self, book: &[u8], rule: u32) -> Blocking;
    /// Culprits.
    fn culprits(&self, book: &[u8], rule: u32) -> Causes;
    /// Ask: the records are changed as the call changes them.
    fn ask(
        &self,
        book: &[u8],
        user: u32,
        plan: &[u8],
        records: &mut Records,
    ) -> Result<Reply, Refusal>;
    /// Commit: the number given.
    fn commit(
        &self,
        book: &[u8],
        user: u32,
        number: u32,
        records: &mut Records,
    ) -> Result<u32, Refusal>;
    /// Drop: the number given.
    fn drop_hold(
        &self,
        book: &[u8],
        user: u32,
        number: u32,
        records: &mut Records,
    ) -> Result<u32, Refusal>;
    /// Tree: the value as C has it, so that every bit of it is compared. The memory is changed as the
    /// call changes it.
    fn tree(&self, given: &mut Tree) -> Result<u32, Refusal>;
    /// An arrival: the record is changed as the call changes it.
    fn arrive(&self, record: &mut Record, block: &[u8]) -> Marking;
    /// A departure: the record is changed as the call changes it.
    fn depart(&self, record: &mut Record, rule: u32) -> Marking;
}

/// The second implementation, with one of its searches.
pub struct Second {
    /// How it searches.
    pub search: Search,
}

/// The searches of the second implementation, and when each gives up.
pub enum Search {
    /// The one that skips: after so many steps.
    Skipping(u64),
    /// The naive one: before so many choices, over all users.
    Naive(u128),
}

impl Engine for Second {
    fn name(&self) -> &'static str {
        match self.search {
            Search::Skipping(_) => "second",
            Search::Naive(_) => "naive",
        }
    }
    fn check(&self, book: &[u8]) -> Result<u32, Refusal> {
        second::check(book)
    }
    fn seal(&self, block: &mut [u8]) -> Result<(), Refusal> {
        second::seal(block)
    }
    fn flows(&self, book: &[u8], plan: &[u8], words: &mut [u64]) -> Result<(), Refusal> {
        second::flows(book, plan, words)
    }
    fn judge(&self, book: &[u8], user: u32, plan: &[u8]) -> Result<u32, Refusal> {
        second::judge(book, user, plan)
    }
    fn idle(&self, book: &[u8], rule: u32, buffer: &mut [u8]) -> Idleness {
        match self.search {
            Search::Skipping(steps) => second::idle_within(book, rule, buffer, steps),
            Search::Naive(most) if choices(book, rule) > most => None,
            Search::Naive(_) => Some(second::idle_naive(book, rule, buffer)),
        }
    }
    fn blocked(&self, book: &[u8], rule: u32) -> Blocking {
        let answer = match self.search {
            Search::Skipping(steps) => second::blocked_within(book, rule, steps)?,
            Search::Naive(most) if choices(book, rule) > most => return None,
            Search::Naive(_) => second::blocked_naive(book, rule),
        };
        Some(answer.map(|closed| match closed {
            None => 0,
            Some((user, data)) => packed(user, &data),
        }))
    }
    fn culprits(&self, book: &[u8], rule: u32) -> Causes {
        let answer = match self.search {
            Search::Skipping(steps) => second::culprits_within(book, rule, steps)?,
            Search::Naive(most) if choices(book, rule) > most => return None,
            Search::Naive(_) => second::culprits_naive(book, rule),
        };
        Some(answer.map(|others| others.map_or(0, |mask| with_asking(mask, rule))))
    }
    fn ask(
        &self,
        book: &[u8],
        user: u32,
        plan: &[u8],
        records: &mut Records,
    ) -> Result<Reply, Refusal> {
        let answer = records::by_second(records, |ledger, tally, holds| {
            second::ask(book, user, plan, ledger, tally, holds)
        });
        answer.map(reply)
    }
    fn commit(
        &self,
        book: &[u8],
        user: u32,
        number: u32,
        records: &mut Records,
    ) -> Result<u32, Refusal> {
        records::by_second(records, |ledger, tally, holds| {
            second::commit(book, user, number, ledger, tally, holds)
        })
    }
    fn drop_hold(
        &self,
        book: &[u8],
        user: u32,
        number: u32,
        records: &mut Records,
    ) -> Result<u32, Refusal> {
        records::by_second(records, |ledger, tally, holds| {
            second::drop_hold(book, user, number, ledger, tally, holds)
        })
    }
    fn tree(&self, given: &mut Tree) -> Result<u32, Refusal> {
        let buffer = &mut given.memory[..given.lent];
        let answer = second::tree(&given.book, &given.plan, given.row, buffer);
        answer.map(|(nodes, length)| with_length(nodes, length))
    }
    fn arrive(&self, record: &mut Record, block: &[u8]) -> Marking {
        records::edited_by_second(record, |record| {
            second::arrive_by(record, block, &|book, rule| self.search.found(book, rule))
        })
    }
    fn depart(&self, record: &mut Record, rule: u32) -> Marking {
        records::edited_by_second(record, |record| {
            second::depart_by(record, rule, &|book, rule| self.search.found(book, rule))
        })
    }
}

impl Search {
    /// What it finds for a rule that is there, or nothing where it gives up.
    fn found(&self, book: &Book, rule: usize) -> Option<Found> {
        match *self {
            Search::Skipping(steps) => idle::within(book, rule, steps),
            Search::Naive(most) if choices_of(book, rule) > most => None,
            Search::Naive(_) => Some(idle::naive(book, rule)),
        }
    }
}

/// What an ask replies as the header packs it.
fn reply(asked: Asked) -> Reply {
    match asked.mask {
        0 => held(asked.number),
        mask => u64::from(mask),
    }
}

/// The reply that a plan is held under a number, as the header packs it: 2^32 + number.
pub fn held(number: u32) -> Reply {
    (1 << 32) + u64::from(number)
}

/// A user and an association as the header packs them: user × 2^24, and for reference i
/// (128 + 64 × action + leaf) × 256^i.
pub fn packed(user: u32, data: &[Datum]) -> u32 {
    let byte = |datum: &Datum| match datum.action {
        Action::Projection => 128 + datum.leaf as u32,
        Action::Condition => 192 + datum.leaf as u32,
    };
    let low = data
        .iter()
        .rev()
        .fold(0, |sum, datum| 256 * sum + byte(datum));
    (user << 24) + low
}

/// A mask of other rules as the header packs it: + 2^rule.
pub fn with_asking(others: u32, rule: u32) -> u32 {
    others + (1 << rule)
}

/// The nodes of a tree and the length of its text as the header packs them: (nodes − 1) × 2^20 + length.
pub fn with_length(nodes: u32, length: u32) -> u32 {
    ((nodes - 1) << 20) + length
}

/// A value of Tree taken apart again: the nodes and the length.
pub fn nodes_and_length(value: u32) -> (u32, u32) {
    ((value >> 20) + 1, value % (1 << 20))
}

/// A value of Blocked that is not 0 taken apart again.
pub fn unpacked(value: u32) -> (u32, Vec<Datum>) {
    let bytes = (0..3).map(|i| value >> (8 * i) & 255);
    let data = bytes.filter(|byte| byte & 128 != 0).map(|byte| Datum {
        action: match byte & 64 {
            0 => Action::Projection,
            _ => Action::Condition,
        },
        leaf: (byte & 63) as usize,
    });
    (value >> 24, data.collect())
}

/// The choices of a rule, over all users; none where there is no such rule.
fn choices(book: &[u8], rule: u32) -> u128 {
    let rule = rule as usize;
    match reading::read(book) {
        Ok(book) if rule < book.rules.len() => choices_of(&book, rule),
        _ => 0,
    }
}

/// The choices of a rule that is there, over all users.
fn choices_of(book: &Book, rule: usize) -> u128 {
    book.users.leaves().len() as u128 * idle::choices(book, rule)
}

/// The proved engine, through its C calls.
#[cfg(feature = "engine")]
pub struct Proved;

#[cfg(feature = "engine")]
impl Engine for Proved {
    fn name(&self) -> &'static str {
        "engine"
    }
    fn check(&self, book: &[u8]) -> Result<u32, Refusal> {
        value(raw::check(book))
    }
    fn seal(&self, block: &mut [u8]) -> Result<(), Refusal> {
        value(raw::seal(block)).map(|_| ())
    }
    fn flows(&self, book: &[u8], plan: &[u8], words: &mut [u64]) -> Result<(), Refusal> {
        value(raw::flows(book, plan, words)).map(|_| ())
    }
    fn judge(&self, book: &[u8], user: u32, plan: &[u8]) -> Result<u32, Refusal> {
        value(raw::judge(book, user, plan))
    }
    fn idle(&self, book: &[u8], rule: u32, buffer: &mut [u8]) -> Idleness {
        Some(value(raw::idle(book, rule, buffer)).map(raw::shown))
    }
    fn blocked(&self, book: &[u8], rule: u32) -> Blocking {
        Some(value(raw::blocked(book, rule)))
    }
    fn culprits(&self, book: &[u8], rule: u32) -> Causes {
        Some(value(raw::culprits(book, rule)))
    }
    fn ask(
        &self,
        book: &[u8],
        user: u32,
        plan: &[u8],
        records: &mut Records,
    ) -> Result<Reply, Refusal> {
        let answer = records::by_engine(records, |ledger, tally, holds| {
            raw::ask(book, user, plan, ledger, tally, holds)
        });
        value(answer).map(|_| answer)
    }
    fn commit(
        &self,
        book: &[u8],
        user: u32,
        number: u32,
        records: &mut Records,
    ) -> Result<u32, Refusal> {
        value(records::by_engine(records, |ledger, tally, holds| {
            raw::commit(book, user, number, ledger, tally, holds)
        }))
    }
    fn drop_hold(
        &self,
        book: &[u8],
        user: u32,
        number: u32,
        records: &mut Records,
    ) -> Result<u32, Refusal> {
        value(records::by_engine(records, |ledger, tally, holds| {
            raw::drop_hold(book, user, number, ledger, tally, holds)
        }))
    }
    fn tree(&self, given: &mut Tree) -> Result<u32, Refusal> {
        let buffer = &mut given.memory[..given.lent];
        value(raw::tree(&given.book, &given.plan, given.row, buffer))
    }
    fn arrive(&self, record: &mut Record, block: &[u8]) -> Marking {
        let Record {
            blocks,
            rules,
            marks,
        } = record;
        Some(value(raw::arrive(blocks, rules, marks, block)))
    }
    fn depart(&self, record: &mut Record, rule: u32) -> Marking {
        let Record {
            blocks,
            rules,
            marks,
        } = record;
        Some(value(raw::depart(blocks, rules, marks, rule)))
    }
}

#[cfg(feature = "engine")]
fn value(answer: u64) -> Result<u32, Refusal> {
    raw::value(answer).map_err(|refusal| Refusal {
        number: refusal.number(),
        place: refusal.place(),
    })
}

/// Steps after which the second implementation gives up on a search.
pub const STEPS: u64 = 30_000;

/// The engine of a name.
pub fn by_name(name: &str) -> Option<Box<dyn Engine>> {
    match name {
        "second" => second(Search::Skipping(STEPS)),
        "naive" => second(Search::Naive(5_000)),
        #[cfg(feature = "engine")]
        "engine" => Some(Box::new(Proved)),
        _ => None,
    }
}

fn second(search: Search) -> Option<Box<dyn Engine>> {
    Some(Box::new(Second { search }))
}

/// The two that are tried against each other when nothing else is asked.
pub const USUAL: [&str; 2] = if cfg!(feature = "engine") {
    ["engine", "second"]
} else {
    ["second", "naive"]
};
