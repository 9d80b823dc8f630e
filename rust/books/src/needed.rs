//! Books on which a search has much to do before it finds what shows that a rule is needed: 31
//! users, 60 leaves, 15 operations, everything obtainable, 32 rules of three references. Rule 0 is
//! asked about.
//!
//! Rule 0 accepts no choice with operation 0, 1 or 15. Copies of it stop nearly all that breaks it,
//! and the other rules accept what is left.

use crate::draft::{reference, Draft, Rule, ACCESS, PROJECTION};
use crate::named::{filler, hard_head, ALL};
use crate::random::Random;

/// The first operation, and the last.
const FIRST: u16 = 1 << 1;
const LAST: u16 = 1 << 15;

/// A hard book, and what is to be shown of its rule 0.
#[derive(Clone, Debug)]
pub struct Needed {
    /// The name of the book.
    pub name: &'static str,
    /// The book.
    pub draft: Draft,
    /// The user.
    pub user: u32,
    /// The rows of the plan.
    pub plan: Vec<[u8; 4]>,
}

/// The hard books.
pub fn hard() -> Vec<Needed> {
    vec![
        needed_last(),
        lighter_last("hard, lighter last", false),
        lighter_last("hard, lighter last, last user", true),
    ]
}

/// One choice breaks rule 0 alone, the last in document 01's order: for user 31 the last leaves as
/// conditions, each under operation 15.
fn needed_last() -> Needed {
    Needed {
        name: "hard, needed last",
        draft: beside(&[], [LAST; 3], true),
        user: 31,
        plan: last_leaves([true; 3]),
    }
}

/// Any leaves, each under operation 1, break rule 0 alone, and so the choice with the first leaves
/// put out does. One with a single function does too, the last of these in document 01's order: the
/// last leaves as conditions, that of the first reference under operation 15. So it is for every
/// user, or for user 31 only.
fn lighter_last(name: &'static str, last_user: bool) -> Needed {
    Needed {
        name,
        draft: beside(&[[FIRST; 3]], [LAST, 0, 0], last_user),
        user: if last_user { 31 } else { 1 },
        plan: last_leaves([true, false, false]),
    }
}

/// Of the choices that break rule 0 the others let through what a restriction of `anywhere`
/// accepts, and what that of `at_end` accepts at the last leaves as conditions; for the last user
/// only, if so asked.
fn beside(anywhere: &[[u16; 3]], at_end: [u16; 3], last_user: bool) -> Draft {
    let mut random = Random::new(31);
    let mut draft = hard_head();
    let accepted = [anywhere, &[at_end]].concat();
    let decoys = 8 - accepted.len();
    let asked = Rule {
        user: 0,
        excluded: vec![],
        references: (1..=3).map(|group| reference(group, ACCESS)).collect(),
        restrictions: (0..decoys).map(|_| decoy(&mut random)).collect(),
    };
    let mut copies = not_at_end(&with(&asked, anywhere));
    if last_user {
        copies.push(Rule {
            excluded: vec![31],
            ..asked.clone()
        });
    }
    copies.push(with(&asked, &accepted));
    draft.rules.push(asked);
    while draft.rules.len() + copies.len() < 32 {
        let mut other = filler(&mut random, &draft, 1);
        other.restrictions = (0..decoys).map(|_| decoy(&mut random)).collect();
        draft.rules.push(with(&other, &accepted));
    }
    draft.rules.extend(copies);
    draft
}

/// The rule with more restrictions, whose masks are for the three groups in turn.
fn with(rule: &Rule, more: &[[u16; 3]]) -> Rule {
    let mut new = rule.clone();
    for masks in more {
        let mask = |place: usize| masks[usize::from(rule.references[place].category) - 1];
        new.restrictions.push([mask(0), mask(1), mask(2)]);
    }
    new
}

/// Copies of a rule that each leave out the last leaf of a reference, or conditions for it.
fn not_at_end(rule: &Rule) -> Vec<Rule> {
    let mut copies = Vec::new();
    for place in 0..3 {
        let mut copy = rule.clone();
        copy.references[place].excluded = vec![23 + 20 * place as u8];
        copies.push(copy);
        let mut copy = rule.clone();
        copy.references[place].action = PROJECTION;
        copies.push(copy);
    }
    copies
}

/// Masks of some operations but the first and the last, never empty.
fn decoy(random: &mut Random) -> [u16; 3] {
    [0; 3].map(|_| random.some_of(ALL & !FIRST & !LAST) | 1 << random.between(2, 14))
}

/// The plan of the last leaves as conditions, some under operation 15: columns 19, 39 and 59,
/// function 14.
fn last_leaves(applied: [bool; 3]) -> Vec<[u8; 4]> {
    let mut rows: Vec<[u8; 4]> = Vec::new();
    for (applied, column) in applied.into_iter().zip([19, 39, 59]) {
        rows.push([1, column, 0, 0]);
        if applied {
            rows.push([2, 14, rows.len() as u8 - 1, 255]);
        }
        rows.push([5, rows.len() as u8 - 1, 0, 0]);
    }
    rows
}
