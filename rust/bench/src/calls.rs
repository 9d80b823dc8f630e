//! The engine's times and answers, or nothing where the engine is left out.

use std::ops::Range;
use std::time::Duration;

#[cfg(feature = "engine")]
pub use with_engine::*;
#[cfg(not(feature = "engine"))]
pub use without::*;

#[cfg(feature = "engine")]
mod with_engine {
    use super::{Duration, Range};
    use crate::clock::best;
    use crate::edits::{Edit, Editing};
    use crate::reserve::Reserve;
    use crate::trees::Asked;
    use books::edits::Record;
    use books::trees::ROOM;
    use pspec::raw;
    use std::hint::black_box;

    pub fn check(book: &[u8]) -> Option<Duration> {
        Some(best(|| raw::check(black_box(book))))
    }

    pub fn seal(block: &mut [u8]) -> Option<Duration> {
        Some(best(|| raw::seal(black_box(block))))
    }

    pub fn flows(book: &[u8], plan: &[u8]) -> Option<Duration> {
        let mut words = [0; raw::WORDS];
        Some(best(|| raw::flows(book, black_box(plan), &mut words)))
    }

    pub fn judge(book: &[u8], user: u32, plan: &[u8]) -> Option<Duration> {
        Some(best(|| raw::judge(book, user, black_box(plan))))
    }

    pub fn ask(book: &[u8], user: u32, reserve: &Reserve) -> Option<Duration> {
        let (plan, ledger) = (&reserve.plan, &reserve.ledger);
        let start = records(user, reserve);
        let mut ask = || {
            let (mut tally, mut holds) = start;
            raw::ask(book, user, black_box(plan), ledger, &mut tally, &mut holds)
        };
        Some(best(&mut ask))
    }

    pub fn commit(book: &[u8], user: u32, reserve: &Reserve) -> Option<Duration> {
        let (mut ledger, number) = (reserve.ledger.clone(), reserve.number());
        let start = records(user, reserve);
        let mut commit = || {
            let (mut tally, mut holds) = start;
            let number = black_box(number);
            raw::commit(book, user, number, &mut ledger, &mut tally, &mut holds)
        };
        Some(best(&mut commit))
    }

    pub fn drop_hold(book: &[u8], user: u32, reserve: &Reserve) -> Option<Duration> {
        let (ledger, number) = (&reserve.ledger, reserve.number());
        let start = records(user, reserve);
        let mut drop_hold = || {
            let (mut tally, mut holds) = start;
            raw::drop_hold(
                book,
                user,
                black_box(number),
                ledger,
                &mut tally,
                &mut holds,
            )
        };
        Some(best(&mut drop_hold))
    }

    /// A fresh tally, and the hold record.
    fn records(user: u32, reserve: &Reserve) -> (raw::Tally, raw::Holds) {
        let mut holds = raw::Holds::default();
        let words = holds.words.chunks_exact_mut(raw::WORDS);
        for (place, words) in words.enumerate().take(reserve.taken) {
            (holds.users[place], holds.numbers[place]) = (user, place as u32 + 1);
            words.copy_from_slice(&reserve.words);
        }
        (raw::Tally::default(), holds)
    }

    pub fn idle(book: &[u8], rules: Range<u32>) -> Option<Duration> {
        let search = |rule: u32| raw::idle(black_box(book), rule, &mut [0; raw::BUFFER]);
        let answered = |rule: u32| raw::value(search(rule)).is_ok();
        Some(best(|| rules.clone().all(answered)))
    }

    pub fn blocked(book: &[u8], rules: Range<u32>) -> Option<Vec<(u32, Duration)>> {
        Some(each(rules, |rule| raw::blocked(black_box(book), rule)))
    }

    pub fn culprits(book: &[u8], rules: Range<u32>) -> Option<Vec<(u32, Duration)>> {
        Some(each(rules, |rule| raw::culprits(black_box(book), rule)))
    }

    pub fn tree(book: &[u8], asked: &Asked) -> Option<Duration> {
        let mut buffer = vec![0; ROOM];
        let mut tree = || raw::tree(book, black_box(&asked.plan), asked.row, &mut buffer);
        Some(best(&mut tree))
    }

    /// Each call begins from the same record.
    pub fn edit(given: &Editing) -> Option<Duration> {
        let mut record = given.record.clone();
        let mut edit = || {
            record.blocks.copy_from_slice(&given.record.blocks[..]);
            (record.rules, record.marks) = (given.record.rules, given.record.marks);
            edited(&given.edit, &mut record)
        };
        Some(best(&mut edit))
    }

    fn edited(edit: &Edit, record: &mut Record) -> u64 {
        let Record {
            blocks,
            rules,
            marks,
        } = record;
        match edit {
            Edit::Arrive(block) => raw::arrive(blocks, rules, marks, black_box(block)),
            Edit::Depart(rule) => raw::depart(blocks, rules, marks, black_box(*rule)),
        }
    }

    pub fn is_idle(book: &[u8], rule: u32) -> bool {
        raw::value(raw::idle(book, rule, &mut [0; raw::BUFFER])) == Ok(0)
    }

    /// The time of each rule that does not forbid.
    fn each(rules: Range<u32>, search: impl Fn(u32) -> u64) -> Vec<(u32, Duration)> {
        let answered = |rule: &u32| raw::value(search(*rule)).is_ok();
        let timed = |rule: u32| (rule, best(|| search(rule)));
        rules.filter(answered).map(timed).collect()
    }

    pub fn check_once(book: &[u8]) {
        black_box(raw::check(black_box(book)));
    }

    pub fn flows_once(book: &[u8], plan: &[u8]) {
        black_box(raw::flows(book, black_box(plan), &mut [0; raw::WORDS]));
    }

    pub fn judge_once(book: &[u8], user: u32, plan: &[u8]) {
        black_box(raw::judge(book, user, black_box(plan)));
    }

    // Ask, Commit, Drop and edits are made ready first, with their records on the heap, so that what is measured
    // is theirs alone.

    pub fn ask_once(book: &[u8], user: u32, reserve: Reserve) -> impl FnOnce() + Send + '_ {
        let mut records = Box::new(records(user, &reserve));
        move || {
            let (tally, holds) = &mut *records;
            let (plan, ledger) = (black_box(&reserve.plan), &reserve.ledger);
            black_box(raw::ask(book, user, plan, ledger, tally, holds));
        }
    }

    pub fn commit_once(book: &[u8], user: u32, reserve: Reserve) -> impl FnOnce() + Send + '_ {
        let mut records = Box::new(records(user, &reserve));
        let (number, mut ledger) = (reserve.number(), reserve.ledger);
        move || {
            let (tally, holds) = &mut *records;
            let number = black_box(number);
            black_box(raw::commit(book, user, number, &mut ledger, tally, holds));
        }
    }

    pub fn drop_once(book: &[u8], user: u32, reserve: Reserve) -> impl FnOnce() + Send + '_ {
        let mut records = Box::new(records(user, &reserve));
        move || {
            let (tally, holds) = &mut *records;
            let (number, ledger) = (black_box(reserve.number()), &reserve.ledger);
            black_box(raw::drop_hold(book, user, number, ledger, tally, holds));
        }
    }

    pub fn edit_once(given: Editing) -> impl FnOnce() + Send {
        let Editing { mut record, edit } = given;
        move || {
            black_box(edited(&edit, &mut record));
        }
    }

    pub fn idle_once(book: &[u8], rule: u32) {
        black_box(raw::idle(black_box(book), rule, &mut [0; raw::BUFFER]));
    }

    pub fn blocked_once(book: &[u8], rule: u32) {
        black_box(raw::blocked(black_box(book), rule));
    }

    pub fn culprits_once(book: &[u8], rule: u32) {
        black_box(raw::culprits(black_box(book), rule));
    }

    pub fn tree_once(book: &[u8], asked: &Asked) {
        let mut buffer = vec![0; ROOM];
        let plan = black_box(&asked.plan);
        black_box(raw::tree(book, plan, asked.row, &mut buffer));
    }
}

#[cfg(not(feature = "engine"))]
mod without {
    use super::{Duration, Range};
    use crate::edits::Editing;
    use crate::reserve::Reserve;
    use crate::trees::Asked;
    use crate::STEPS;

    pub fn check(_: &[u8]) -> Option<Duration> {
        None
    }

    pub fn seal(_: &mut [u8]) -> Option<Duration> {
        None
    }

    pub fn flows(_: &[u8], _: &[u8]) -> Option<Duration> {
        None
    }

    pub fn judge(_: &[u8], _: u32, _: &[u8]) -> Option<Duration> {
        None
    }

    pub fn ask(_: &[u8], _: u32, _: &Reserve) -> Option<Duration> {
        None
    }

    pub fn commit(_: &[u8], _: u32, _: &Reserve) -> Option<Duration> {
        None
    }

    pub fn drop_hold(_: &[u8], _: u32, _: &Reserve) -> Option<Duration> {
        None
    }

    pub fn idle(_: &[u8], _: Range<u32>) -> Option<Duration> {
        None
    }

    pub fn blocked(_: &[u8], _: Range<u32>) -> Option<Vec<(u32, Duration)>> {
        None
    }

    pub fn culprits(_: &[u8], _: Range<u32>) -> Option<Vec<(u32, Duration)>> {
        None
    }

    pub fn tree(_: &[u8], _: &Asked) -> Option<Duration> {
        None
    }

    pub fn edit(_: &Editing) -> Option<Duration> {
        None
    }

    /// By the second implementation; what it gives up on is taken for needed.
    pub fn is_idle(book: &[u8], rule: u32) -> bool {
        second::idle_within(book, rule, &mut [0; 36], STEPS) == Some(Ok(None))
    }

    pub fn check_once(_: &[u8]) {}

    pub fn flows_once(_: &[u8], _: &[u8]) {}

    pub fn judge_once(_: &[u8], _: u32, _: &[u8]) {}

    pub fn ask_once(_: &[u8], _: u32, _: Reserve) -> impl FnOnce() + Send + '_ {
        || ()
    }

    pub fn commit_once(_: &[u8], _: u32, _: Reserve) -> impl FnOnce() + Send + '_ {
        || ()
    }

    pub fn drop_once(_: &[u8], _: u32, _: Reserve) -> impl FnOnce() + Send + '_ {
        || ()
    }

    pub fn edit_once(_: Editing) -> impl FnOnce() + Send {
        || ()
    }

    pub fn idle_once(_: &[u8], _: u32) {}

    pub fn blocked_once(_: &[u8], _: u32) {}

    pub fn culprits_once(_: &[u8], _: u32) {}

    pub fn tree_once(_: &[u8], _: &Asked) {}
}
