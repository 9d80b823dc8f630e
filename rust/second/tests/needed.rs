//! The hard books with a needed rule: what is to be shown of rule 0 comes first in the order of
//! documents 01 and 02.

use books::needed::{hard, Needed};
use books::Draft;
use second::access::{Access, Action};
use second::book::Book;
use second::{breaking, choice, idle, path, plan, reading};
use std::collections::BTreeSet;

fn book(draft: &Draft) -> Book {
    reading::read(&draft.bytes()).expect("it is accepted")
}

/// The accesses of the plan that is to be shown.
fn wanted(needed: &Needed) -> BTreeSet<Access> {
    let book = book(&needed.draft);
    let rows = plan::read(&needed.plan.concat(), &book).expect("it is accepted");
    path::accesses(&book, &rows)
}

/// The same book with columns for the first and the last leaf of each group only, and with
/// functions of operations 1, 8 and 15.
fn smaller(needed: &Needed) -> Book {
    book(&Draft {
        columns: vec![4, 23, 24, 43, 44, 63],
        functions: vec![1, 8, 15],
        ..needed.draft.clone()
    })
}

/// All that breaks rule 0 alone, in document 01's order.
fn alone(book: &Book) -> Vec<(usize, Vec<Access>)> {
    let candidates = choice::fitting(&book.rules[0], &book.obtainable());
    let mut found = Vec::new();
    for user in book.users.leaves() {
        choice::first(&candidates, &mut |choice: &[Access]| {
            let accesses = choice.iter().copied().collect();
            if breaking::breaks_alone(book, user, 0, &accesses) {
                found.push((user, choice.to_vec()));
            }
            false
        });
    }
    found
}

#[test]
fn what_is_to_be_shown_breaks_the_rule_alone() {
    for needed in hard() {
        let mask = second::judge(&needed.draft.bytes(), needed.user, &needed.plan.concat());
        assert_eq!(mask, Ok(1), "{}", needed.name);
        assert_eq!(needed.draft.rules.len(), 32);
    }
}

/// With fewer columns and functions the searches come to an end, and show the same.
#[test]
fn what_is_to_be_shown_comes_first() {
    for needed in hard() {
        let book = smaller(&needed);
        let found = idle::within(&book, 0, u64::MAX).expect("no search takes so many steps");
        let (user, choice) = found.expect("the rule is needed");
        let accesses: BTreeSet<Access> = choice.into_iter().collect();
        let wanted = (needed.user as usize, wanted(&needed));
        assert_eq!((user, accesses), wanted, "{}", needed.name);
    }
}

/// Where the first user is shown, the search comes to an end on the book itself.
#[test]
fn lighter_last_on_the_whole_book() {
    let needed = &hard()[1];
    let mut buffer = [7; 36];
    let answer = second::idle_within(&needed.draft.bytes(), 0, &mut buffer, 20_000_000);
    let rows = needed.plan.len();
    assert_eq!(answer, Some(Ok(Some((needed.user, rows as u32)))));
    assert_eq!(buffer[..4 * rows], needed.plan.concat());
}

/// "hard, needed last" has one choice that breaks rule 0 alone, the last of all that there are.
#[test]
fn needed_last() {
    let needed = &hard()[0];
    let found = alone(&smaller(needed));
    assert_eq!(found.len(), 1);
    let (user, choice) = &found[0];
    assert_eq!(*user, 31);
    let lasts = [23, 43, 63].map(|leaf| Access {
        action: Action::Condition,
        leaf,
        operation: 15,
    });
    assert_eq!(*choice, lasts);
}

/// In the others one with three functions comes first in document 01's order, and one with a single
/// function after it. No other has as few.
#[test]
fn lighter_last() {
    for needed in &hard()[1..] {
        let mut found = alone(&smaller(needed));
        found.retain(|(user, _)| *user == needed.user as usize);
        let firsts = [4, 24, 44].map(|leaf| Access {
            action: Action::Projection,
            leaf,
            operation: 1,
        });
        assert_eq!(found[0].1, firsts, "{}", needed.name);
        found.retain(|(_, choice)| idle::functions(choice) < 2);
        assert_eq!(found.len(), 1, "{}", needed.name);
        assert_eq!(
            found[0].1.iter().copied().collect::<BTreeSet<_>>(),
            wanted(needed)
        );
    }
}
