//! Faults of the test that fits an access to a rule's action: each of its six cases answered the
//! other way (document 02, N4).

use crate::{show, Faulty, GOOD};
use against::actions::{other_way, Pair};
use against::engine::{packed, with_asking, Blocking, Causes, Idleness, STEPS};
use against::Engine;
use second::book::Book;
use second::{blocked, breaking, culprits, idle, path, plan, reading, Refusal};
use std::collections::BTreeSet;

/// In Judge alone.
#[derive(Clone, Copy, Debug)]
pub struct InJudge(pub Pair);

/// In Idle alone.
#[derive(Clone, Copy, Debug)]
pub struct InIdle(pub Pair);

/// In Blocked alone.
#[derive(Clone, Copy, Debug)]
pub struct InBlocked(pub Pair);

/// In Culprits alone.
#[derive(Clone, Copy, Debug)]
pub struct InCulprits(pub Pair);

/// The book as the fault takes it.
fn read(bytes: &[u8], pair: Pair) -> Book {
    let book = reading::read(bytes).expect("it is accepted");
    other_way(&book, pair)
}

impl Faulty for InJudge {
    fn judge(&self, book: &[u8], user: u32, plan: &[u8]) -> Result<u32, Refusal> {
        GOOD.judge(book, user, plan)?;
        let book = read(book, self.0);
        let rows = plan::read(plan, &book).expect("it is accepted");
        let accesses = path::accesses(&book, &rows);
        let broken = breaking::broken(&book, user as usize, &accesses);
        Ok(broken.into_iter().map(|r| 1 << r).sum())
    }
}

impl Faulty for InIdle {
    fn idle(&self, book: &[u8], rule: u32, buffer: &mut [u8]) -> Idleness {
        let answer = GOOD.idle(book, rule, &mut buffer.to_vec())?;
        if answer.is_err() {
            return Some(answer);
        }
        let book = read(book, self.0);
        let found = idle::within(&book, rule as usize, STEPS)?;
        Some(Ok(found.map(|found| show(&book, found, buffer))))
    }
}

impl Faulty for InBlocked {
    fn blocked(&self, book: &[u8], rule: u32) -> Blocking {
        let answer = GOOD.blocked(book, rule)?;
        if answer.is_err() {
            return Some(answer);
        }
        let found = blocked::within(&read(book, self.0), rule as usize, STEPS)?;
        let value = found.map_or(0, |(user, data)| packed(user as u32, &data));
        Some(Ok(value))
    }
}

impl Faulty for InCulprits {
    fn culprits(&self, book: &[u8], rule: u32) -> Causes {
        let answer = GOOD.culprits(book, rule)?;
        if answer.is_err() {
            return Some(answer);
        }
        let others = culprits::within(&read(book, self.0), rule as usize, STEPS)?;
        let mask = |others: BTreeSet<usize>| others.into_iter().map(|r| 1 << r).sum();
        Some(Ok(
            others.map_or(0, |others| with_asking(mask(others), rule))
        ))
    }
}
