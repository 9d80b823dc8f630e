//! When a user and a set of accesses break a rule.

use crate::access::Access;
use crate::book::Book;
use crate::choice;
use crate::rule::Rule;
use std::collections::BTreeSet;

/// Above this many choices, accesses of the same operation count once for a reference.
const MANY: usize = 20_000;

/// "A rule is broken by a user and a set of accesses when it covers the user and one access can be
/// chosen for each reference, with fitting action and covered leaf, so that no restriction accepts
/// the choice."
pub fn breaks(rule: &Rule, user: usize, accesses: &BTreeSet<Access>) -> bool {
    if !rule.users.contains(&user) {
        return false;
    }
    let mut candidates = choice::fitting(rule, accesses);
    if candidates.iter().map(Vec::len).product::<usize>() > MANY {
        candidates.iter_mut().for_each(one_for_each_operation);
    }
    some_choice_is_unaccepted(rule, &candidates)
}

fn some_choice_is_unaccepted(rule: &Rule, candidates: &[Vec<Access>]) -> bool {
    let mut unaccepted = |choice: &[Access]| !rule.restrictions.iter().any(|r| r.accepts(choice));
    choice::first(candidates, &mut unaccepted).is_some()
}

/// A restriction looks at the operation alone, so one access for each is enough.
fn one_for_each_operation(candidates: &mut Vec<Access>) {
    let mut seen = BTreeSet::new();
    candidates.retain(|access| seen.insert(access.operation));
}

/// The rules that a user and a set of accesses break.
pub fn broken(book: &Book, user: usize, accesses: &BTreeSet<Access>) -> BTreeSet<usize> {
    (0..book.rules.len())
        .filter(|&r| breaks(&book.rules[r], user, accesses))
        .collect()
}

/// "They break r alone when they break r and no other rule of the book"
pub fn breaks_alone(book: &Book, user: usize, rule: usize, accesses: &BTreeSet<Access>) -> bool {
    broken(book, user, accesses) == BTreeSet::from([rule])
}

#[cfg(test)]
mod tests {
    use super::*;
    use crate::reading;

    /// Accesses counted once for each operation give the same verdict as all of them.
    #[test]
    fn one_access_for_each_operation_is_enough() {
        let mut random = books::Random::new(5);
        for _ in 0..200 {
            let draft = books::valid::draft(&mut random, books::valid::Size::Tiny);
            let book = reading::read(&draft.bytes()).unwrap();
            let some = |_: &Access| random.chance(1, 2);
            let accesses: BTreeSet<Access> = book.obtainable().into_iter().filter(some).collect();
            for rule in &book.rules {
                let all = choice::fitting(rule, &accesses);
                let mut few = all.clone();
                few.iter_mut().for_each(one_for_each_operation);
                let whole = some_choice_is_unaccepted(rule, &all);
                assert_eq!(whole, some_choice_is_unaccepted(rule, &few));
            }
        }
    }
}
