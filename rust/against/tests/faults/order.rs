//! Faults of the order in which Idle takes its choices (document 02, N2).

use crate::{show, Faulty, GOOD};
use against::engine::Idleness;
use against::Engine;
use second::access::{Access, Action};
use second::book::Book;
use second::idle::functions;
use second::{breaking, choice, idle, reading};
use std::collections::BTreeSet;

#[derive(Clone, Copy, Debug, PartialEq, Eq)]
pub enum Fault {
    /// Document 01's order; the same if each access counts, raw or not.
    FunctionsDoNotCount,
    FunctionsBeforeUsers,
    LastOfTheEqual,
    RawAccessesCount,
    OneFunctionCountsAsMany,
    EachOperationCountsOnce,
    RawFirstForEachReference,
    ProjectionsAloneCount,
}

pub const FAULTS: [Fault; 8] = [
    Fault::FunctionsDoNotCount,
    Fault::FunctionsBeforeUsers,
    Fault::LastOfTheEqual,
    Fault::RawAccessesCount,
    Fault::OneFunctionCountsAsMany,
    Fault::EachOperationCountsOnce,
    Fault::RawFirstForEachReference,
    Fault::ProjectionsAloneCount,
];

/// A user and a choice.
type One = (usize, Vec<Access>);

impl Faulty for Fault {
    fn idle(&self, book: &[u8], rule: u32, buffer: &mut [u8]) -> Idleness {
        let before = buffer.to_vec();
        let answer = GOOD.idle(book, rule, buffer)?;
        let Ok(Some(_)) = answer else {
            return Some(answer);
        };
        let book = reading::read(book).expect("it is accepted");
        let Some(first) = self.first(alone(&book, rule as usize)) else {
            return Some(answer);
        };
        buffer.copy_from_slice(&before);
        Some(Ok(Some(show(&book, first, buffer))))
    }
}

impl Fault {
    /// What the fault takes for the first, of users and choices in document 01's order. Of equal
    /// ones `min_by_key` gives the first.
    fn first(&self, all: Vec<One>) -> Option<One> {
        let user = all.first()?.0;
        let of_user = || all.iter().filter(|one| one.0 == user);
        let first = match self {
            Fault::FunctionsDoNotCount => of_user().next(),
            Fault::FunctionsBeforeUsers => all.iter().min_by_key(|one| functions(&one.1)),
            Fault::LastOfTheEqual => of_user().rev().min_by_key(|one| functions(&one.1)),
            Fault::RawFirstForEachReference => of_user().min_by_key(|one| raw_first(&one.1)),
            _ => of_user().min_by_key(|one| self.weight(&one.1)),
        };
        first.cloned()
    }

    /// What the fault counts instead of the functions of a choice.
    fn weight(&self, choice: &[Access]) -> usize {
        let applied = choice.iter().filter(|access| !access.is_raw());
        match self {
            Fault::RawAccessesCount => choice.len() - functions(choice),
            Fault::OneFunctionCountsAsMany => functions(choice).min(1),
            Fault::EachOperationCountsOnce => {
                let operations: BTreeSet<u8> = applied.map(|access| access.operation).collect();
                operations.len()
            }
            Fault::ProjectionsAloneCount => {
                let put_out = applied.filter(|access| access.action == Action::Projection);
                put_out.count()
            }
            _ => functions(choice),
        }
    }
}

/// The key of an order that goes reference by reference throughout, in each from raw accesses to
/// others.
fn raw_first(choice: &[Access]) -> Vec<(bool, Access)> {
    let key = |access: &Access| (!access.is_raw(), *access);
    choice.iter().map(key).collect()
}

/// Every user and choice that break a rule alone, in document 01's order; none where there are many
/// to try.
fn alone(book: &Book, rule: usize) -> Vec<One> {
    let mut found = Vec::new();
    let users = book.users.leaves();
    if users.len() as u128 * idle::choices(book, rule) > 5_000 {
        return found;
    }
    let candidates = choice::fitting(&book.rules[rule], &book.obtainable());
    for user in users {
        choice::first(&candidates, &mut |choice: &[Access]| {
            let accesses = choice.iter().copied().collect();
            if breaking::breaks_alone(book, user, rule, &accesses) {
                found.push((user, choice.to_vec()));
            }
            false
        });
    }
    found
}
