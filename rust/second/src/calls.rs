//! The calls but for the edits: what is refused, in the documents' order, and what is answered.

use crate::access::Access;
use crate::blocked::{self, Datum};
use crate::book::Book;
use crate::culprits::{self, Others};
use crate::holds::{Holds, Place};
use crate::idle::{self, Found};
use crate::ledger::{self, Tally};
use crate::plan::Row;
use crate::refusal::*;
use crate::tree::{self, MOST};
use crate::{block, breaking, path, plan, reading, shown};
use std::collections::BTreeSet;

/// **Book check.** "Otherwise accepted, with the number of rules."
pub fn check(book: &[u8]) -> Result<u32, Refusal> {
    let book = reading::read(book)?;
    Ok(book.rules.len() as u32)
}

/// **Seal.** "10, not 512 bytes. Otherwise the check is written, other bytes unchanged."
pub fn seal(bytes: &mut [u8]) -> Result<(), Refusal> {
    if bytes.len() != block::SIZE {
        return Err(Refusal::of(BLOCK_LENGTH));
    }
    block::write_check(bytes);
    Ok(())
}

/// **Flows.** The words are written as [`ledger::write`] says.
pub fn flows(book: &[u8], plan: &[u8], words: &mut [u64]) -> Result<(), Refusal> {
    let book = reading::read(book)?;
    let rows = plan::read(plan, &book)?;
    if words.len() != 32 {
        return Err(Refusal::of(WORDS_LENGTH));
    }
    ledger::write(&path::accesses(&book, &rows), words);
    Ok(())
}

/// **Judge.** "Otherwise a 32-bit mask, bit r for rule r."
pub fn judge(book: &[u8], user: u32, plan: &[u8]) -> Result<u32, Refusal> {
    let judged = judged(book, user, plan)?;
    Ok(judged.mask(&judged.accesses))
}

/// What Judge and Ask have once Judge refuses nothing.
struct Judged {
    book: Book,
    user: usize,
    accesses: BTreeSet<Access>,
}

/// "Book refusals; 20, the user is no leaf; 21; 22."
fn judged(book: &[u8], user: u32, plan: &[u8]) -> Result<Judged, Refusal> {
    let book = reading::read(book)?;
    let user = a_user(&book, user).ok_or(Refusal::of(NO_USER))?;
    let rows = plan::read(plan, &book)?;
    let accesses = path::accesses(&book, &rows);
    Ok(Judged {
        book,
        user,
        accesses,
    })
}

impl Judged {
    /// The mask of the rules that the user breaks with these accesses.
    fn mask(&self, accesses: &BTreeSet<Access>) -> u32 {
        mask(&breaking::broken(&self.book, self.user, accesses))
    }
}

/// "bit r for rule r"
fn mask(rules: &BTreeSet<usize>) -> u32 {
    rules.iter().map(|&r| 2u32.pow(r as u32)).sum()
}

/// "A user is a leaf of block 0."
fn a_user(book: &Book, user: u32) -> Option<usize> {
    let user = usize::try_from(user).ok()?;
    book.users.is_leaf(user).then_some(user)
}

/// **Idle.** "Otherwise idle, buffer unchanged; or user and row count, the plan at the buffer's
/// front and the rest unchanged." `None` is idle.
pub fn idle(book: &[u8], rule: u32, buffer: &mut [u8]) -> Result<Option<(u32, u32)>, Refusal> {
    let answer = idle_within(book, rule, buffer, u64::MAX);
    answer.expect("no search takes so many steps")
}

/// Idle by trying every user and every choice, for small books.
pub fn idle_naive(
    book: &[u8],
    rule: u32,
    buffer: &mut [u8],
) -> Result<Option<(u32, u32)>, Refusal> {
    let (book, rule) = ready(book, rule, buffer)?;
    Ok(show(&book, idle::naive(&book, rule), buffer))
}

/// Idle, or nothing when the search takes more than so many steps; the buffer is then unchanged.
pub fn idle_within(
    book: &[u8],
    rule: u32,
    buffer: &mut [u8],
    steps: u64,
) -> Option<Result<Option<(u32, u32)>, Refusal>> {
    match ready(book, rule, buffer) {
        Err(refusal) => Some(Err(refusal)),
        Ok((book, rule)) => {
            let found = idle::within(&book, rule, steps)?;
            Some(Ok(show(&book, found, buffer)))
        }
    }
}

/// "Book refusals; 24, no such rule; 25, buffer under 36 bytes."
fn ready(book: &[u8], rule: u32, buffer: &[u8]) -> Result<(Book, usize), Refusal> {
    let book = reading::read(book)?;
    let rule = a_rule(&book, rule).ok_or(Refusal::of(NO_RULE))?;
    if buffer.len() < 36 {
        return Err(Refusal::of(SHORT_BUFFER));
    }
    Ok((book, rule))
}

fn a_rule(book: &Book, rule: u32) -> Option<usize> {
    let rule = usize::try_from(rule).ok()?;
    (rule < book.rules.len()).then_some(rule)
}

/// The user and row count, with the plan written to the buffer's front.
fn show(book: &Book, found: Found, buffer: &mut [u8]) -> Option<(u32, u32)> {
    let (user, choice) = found?;
    let rows = shown::plan(book, &choice);
    let bytes = shown::bytes(&rows);
    buffer[..bytes.len()].copy_from_slice(&bytes);
    Some((user as u32, rows.len() as u32))
}

/// The first user and association of a rule that stay closed; none for a rule that is open.
type Blocking = Option<(u32, Vec<Datum>)>;

/// **Blocked** (document 02, N1). "The first such user and association is given". `None` is open.
pub fn blocked(book: &[u8], rule: u32) -> Result<Blocking, Refusal> {
    let answer = blocked_within(book, rule, u64::MAX);
    answer.expect("no search takes so many steps")
}

/// Blocked by trying every user, association and choice of operations, for small books.
pub fn blocked_naive(book: &[u8], rule: u32) -> Result<Blocking, Refusal> {
    let (book, rule) = with_restrictions(book, rule)?;
    Ok(numbered(blocked::naive(&book, rule)))
}

/// Blocked, or nothing when the search takes more than so many steps.
pub fn blocked_within(book: &[u8], rule: u32, steps: u64) -> Option<Result<Blocking, Refusal>> {
    match with_restrictions(book, rule) {
        Err(refusal) => Some(Err(refusal)),
        Ok((book, rule)) => Some(Ok(numbered(blocked::within(&book, rule, steps)?))),
    }
}

/// "Answers: book refusals, 24, then 26 if the rule forbids."
fn with_restrictions(book: &[u8], rule: u32) -> Result<(Book, usize), Refusal> {
    let book = reading::read(book)?;
    let rule = a_rule(&book, rule).ok_or(Refusal::of(NO_RULE))?;
    if book.rules[rule].restrictions.is_empty() {
        return Err(Refusal::of(RULE_FORBIDS));
    }
    Ok((book, rule))
}

fn numbered(closed: blocked::Closed) -> Blocking {
    closed.map(|(user, association)| (user as u32, association))
}

/// The mask of the other rules behind a block; none for a rule that is not blocked.
type Causes = Option<u32>;

/// **Culprits** (document 02, N6). "The mask may be empty. [..] An unblocked rule gets that reply and
/// no mask." `None` is unblocked.
pub fn culprits(book: &[u8], rule: u32) -> Result<Causes, Refusal> {
    let answer = culprits_within(book, rule, u64::MAX);
    answer.expect("no search takes so many steps")
}

/// Culprits by trying every choice of operations for each rule dropped, for small books.
pub fn culprits_naive(book: &[u8], rule: u32) -> Result<Causes, Refusal> {
    let (book, rule) = with_restrictions(book, rule)?;
    Ok(masked(culprits::naive(&book, rule)))
}

/// Culprits, or nothing when the search takes more than so many steps. "The refusals are N1's."
pub fn culprits_within(book: &[u8], rule: u32, steps: u64) -> Option<Result<Causes, Refusal>> {
    match with_restrictions(book, rule) {
        Err(refusal) => Some(Err(refusal)),
        Ok((book, rule)) => Some(Ok(masked(culprits::within(&book, rule, steps)?))),
    }
}

fn masked(others: Others) -> Causes {
    others.map(|rules| mask(&rules))
}

/// "An ask replies with the mask and that number, 0 if declined".
#[derive(Clone, Copy, Debug, PartialEq, Eq)]
pub struct Asked {
    /// The mask of the rules that the union breaks, 0 for a plan that is held.
    pub mask: u32,
    /// The number of the new hold, 0 for a plan that is declined.
    pub number: u32,
}

/// **Ask** (document 02, N10). "asking checks the plan and holds or declines it": by N3, "A plan is declined
/// exactly when its accesses joined with those held for its user break a rule; the mask of that union is the
/// reply", and "Asking counts the user's held plans as already admitted".
pub fn ask(
    book: &[u8],
    user: u32,
    plan: &[u8],
    ledger: &[u64],
    tally: &mut Tally,
    holds: &mut Holds,
) -> Result<Asked, Refusal> {
    let judged = judged(book, user, plan)?;
    is_whole(ledger)?;
    let counts = &mut tally.users[judged.user];
    let held = holds.of_user(judged.user).count();
    if counts.are_full(held) {
        return Err(Refusal::of(COUNTS_FULL));
    }
    let place = holds.lowest_empty().ok_or(Refusal::of(EIGHT_HELD))?;
    let words = ledger::words_of(ledger, judged.user);
    let mut union = &judged.accesses | &ledger::accesses(words);
    for hold in holds.of_user(judged.user) {
        union.extend(hold.accesses());
    }
    let mask = judged.mask(&union);
    if mask != 0 {
        ledger::raise(&mut counts.declined);
        return Ok(Asked { mask, number: 0 });
    }
    let number = u32::try_from(counts.next_number(held)).expect("it is at most 1,000,000");
    holds.places[place] = Place::of(judged.user, number, &judged.accesses);
    Ok(Asked { mask, number })
}

/// **Commit** (document 02, N10). "committing admits a held plan", "and committing tests none": its accesses
/// join its user's words.
pub fn commit(
    book: &[u8],
    user: u32,
    number: u32,
    ledger: &mut [u64],
    tally: &mut Tally,
    holds: &mut Holds,
) -> Result<u32, Refusal> {
    let (user, place) = a_hold(book, user, number, ledger, holds)?;
    let hold = holds.free(place);
    let words = ledger::words_of_mut(ledger, user);
    let union = &ledger::accesses(words) | &hold.accesses();
    ledger::write(&union, words);
    ledger::raise(&mut tally.users[user].admitted);
    Ok(number)
}

/// **Drop** (document 02, N10). "dropping forgets it", and "The tally counts each user's dropped plans too."
pub fn drop_hold(
    book: &[u8],
    user: u32,
    number: u32,
    ledger: &[u64],
    tally: &mut Tally,
    holds: &mut Holds,
) -> Result<u32, Refusal> {
    let (user, place) = a_hold(book, user, number, ledger, holds)?;
    holds.free(place);
    ledger::raise(&mut tally.users[user].dropped);
    Ok(number)
}

/// "27 for a ledger not of 1,024 words"
fn is_whole(ledger: &[u64]) -> Result<(), Refusal> {
    match ledger.len() {
        ledger::WORDS => Ok(()),
        _ => Err(Refusal::of(LEDGER_LENGTH)),
    }
}

/// "committing or dropping has book refusals, 20 and 27, then 32 for a number that user doesn't hold", else
/// the user and the place that is meant.
fn a_hold(
    book: &[u8],
    user: u32,
    number: u32,
    ledger: &[u64],
    holds: &Holds,
) -> Result<(usize, usize), Refusal> {
    let book = reading::read(book)?;
    let user = a_user(&book, user).ok_or(Refusal::of(NO_USER))?;
    is_whole(ledger)?;
    let place = holds.lowest_with(user, number);
    Ok((user, place.ok_or(Refusal::of(NOT_HELD))?))
}

/// **Tree** (document 02, N7). "The tree of a value row is written to the front of a lent buffer, the
/// rest unchanged". The node count is "returned with the text's length".
pub fn tree(book: &[u8], plan: &[u8], row: u32, buffer: &mut [u8]) -> Result<(u32, u32), Refusal> {
    let book = reading::read(book)?;
    let rows = plan::read(plan, &book)?;
    let (row, nodes) = a_value_row(&rows, row).ok_or(Refusal::of(NO_VALUE_ROW))?;
    let text = text(&rows, row, nodes).filter(|text| text.len() <= buffer.len());
    let text = text.ok_or(Refusal::of(TREE_SIZE))?;
    buffer[..text.len()].copy_from_slice(text.as_bytes());
    Ok((nodes as u32, text.len() as u32))
}

/// A row "of kind 1 to 3", and the nodes of its tree.
fn a_value_row(rows: &[Row], row: u32) -> Option<(usize, u128)> {
    let row = usize::try_from(row).ok()?;
    let nodes = *tree::counts(rows).get(row)?;
    nodes.map(|nodes| (row, nodes))
}

/// "The node count is worked out before anything is written".
fn text(rows: &[Row], row: usize, nodes: u128) -> Option<String> {
    if nodes > MOST {
        return None;
    }
    tree::of(rows, row).map(|tree| tree.text())
}
