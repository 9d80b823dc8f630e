//! Data that no operation can open: the search for a user and an association that stay closed
//! (document 02, N1).

use crate::access::{Access, Action, ACTIONS};
use crate::alike::{self, Candidate};
use crate::book::Book;
use crate::breaking::broken;
use crate::choice;
use crate::rule::{action_fits, Reference, Rule};
use std::collections::BTreeSet;

/// What an association has for one reference: "one covered leaf that some column carries, and one
/// fitting action". The derived order is that of associations: "by action and leaf".
#[derive(Clone, Copy, Debug, PartialEq, Eq, PartialOrd, Ord, Hash)]
pub struct Datum {
    /// Projection or condition.
    pub action: Action,
    /// The leaf.
    pub leaf: usize,
}

/// The first user and association that stay closed, if any do.
pub type Closed = Option<(usize, Vec<Datum>)>;

/// Every covered user, every association, every choice of operations: "with all rules of the book:
/// [..] some covered user and some association in its scope admit no choice of operations under which
/// no rule is broken. [..] The first such user and association is given, ordered by user, then
/// reference by reference by action and leaf."
pub fn naive(book: &Book, rule: usize) -> Closed {
    let all = book.all_rules();
    let rule = &book.rules[rule];
    let scope: Vec<Vec<Datum>> = rule.references.iter().map(|r| data(book, r)).collect();
    rule.users.iter().find_map(|&user| {
        let mut closed = |association: &[Datum]| !opens(book, &all, user, association);
        choice::first(&scope, &mut closed).map(|association| (user, association))
    })
}

/// The data that an association may have for a reference, in order.
pub fn data(book: &Book, reference: &Reference) -> Vec<Datum> {
    let carried = |leaf: &usize| book.columns.contains(&Some(*leaf));
    let of = |action: Action| {
        let leaves = reference.leaves.iter().copied().filter(carried);
        leaves.map(move |leaf| Datum { action, leaf })
    };
    let fitting = ACTIONS
        .into_iter()
        .filter(|&action| action_fits(action, reference.action));
    fitting.flat_map(of).collect()
}

/// "Operations are those that can be had."
fn accesses(book: &Book, datum: &Datum) -> Vec<Access> {
    let all = (0..16).map(|operation| Access {
        action: datum.action,
        leaf: datum.leaf,
        operation,
    });
    all.filter(|access| book.can_be_had(access)).collect()
}

/// Is there a "choice of operations under which no rule is broken"? These rules count, and of accesses
/// those that are chosen.
pub fn opens(book: &Book, rules: &BTreeSet<usize>, user: usize, association: &[Datum]) -> bool {
    let offered: Vec<Vec<Access>> = association.iter().map(|d| accesses(book, d)).collect();
    let mut breaks_none = |choice: &[Access]| {
        let chosen = choice.iter().copied().collect();
        broken(book, user, &chosen).is_disjoint(rules)
    };
    choice::first(&offered, &mut breaks_none).is_some()
}

/// The same answer sooner, or nothing after so many steps. It skips users whom the same rules cover
/// as one before, data and operations that are alike to those before, and choices whose first
/// accesses break a rule by themselves: more accesses break no fewer rules.
pub fn within(book: &Book, rule: usize, steps: u64) -> Option<Closed> {
    let mut steps = steps;
    let mut tried = BTreeSet::new();
    for &user in &book.rules[rule].users {
        let covering = book.covering(user);
        if !tried.insert(covering.clone()) {
            continue;
        }
        let mut search = Search::new(book, rule, &covering, steps);
        let found = search.extend(&mut Vec::new());
        steps = search.steps?;
        if found.is_some() {
            return Some(found.map(|association| (user, association)));
        }
    }
    Some(None)
}

/// The accesses that a datum may become, one of each kind before these rules.
pub fn candidates(book: &Book, rules: &[&Rule], datum: &Datum) -> Vec<Candidate> {
    let all = accesses(book, datum).into_iter();
    let all = all.map(|access| Candidate::new(access, rules));
    alike::first_of_each_kind(all.collect())
}

/// A datum with the accesses that it may become, one of each kind.
struct Offer {
    datum: Datum,
    accesses: Vec<Candidate>,
}

/// The search for one user, before the rules that cover the user.
struct Search<'a> {
    rules: Vec<&'a Rule>,
    /// For each reference the data in its scope, the first of those that are alike.
    scope: Vec<Vec<Offer>>,
    /// What is left; nothing once too many were taken.
    steps: Option<u64>,
}

impl<'a> Search<'a> {
    fn new(book: &'a Book, rule: usize, covering: &[usize], steps: u64) -> Search<'a> {
        let rules: Vec<&Rule> = covering.iter().map(|&r| &book.rules[r]).collect();
        let offer = |datum: Datum| Offer {
            accesses: candidates(book, &rules, &datum),
            datum,
        };
        let references = book.rules[rule].references.iter();
        let scope = references.map(|reference| {
            let mut kinds = BTreeSet::new();
            let all = data(book, reference).into_iter().map(offer);
            all.filter(|offer| kinds.insert(alike::kinds(&offer.accesses)))
                .collect()
        });
        Search {
            scope: scope.collect(),
            rules,
            steps: Some(steps),
        }
    }

    /// The first closed association that begins with these places of the scope.
    fn extend(&mut self, begun: &mut Vec<usize>) -> Option<Vec<Datum>> {
        if begun.len() == self.scope.len() {
            let closed = !self.opens(begun, &mut Vec::new())?;
            return closed.then(|| self.offers(begun).map(|offer| offer.datum).collect());
        }
        for place in 0..self.scope[begun.len()].len() {
            begun.push(place);
            let found = self.extend(begun);
            begun.pop();
            if found.is_some() {
                return found;
            }
        }
        None
    }

    /// What an association is offered, reference by reference.
    fn offers<'b>(&'b self, association: &'b [usize]) -> impl Iterator<Item = &'b Offer> {
        let places = self.scope.iter().zip(association);
        places.map(|(offers, &place)| &offers[place])
    }

    /// Can the choice that begins with these places be ended so that it breaks no rule? Nothing once
    /// too many steps were taken.
    fn opens(&mut self, association: &[usize], begun: &mut Vec<usize>) -> Option<bool> {
        let here = self.offers(association).nth(begun.len());
        let Some(count) = here.map(|offer| offer.accesses.len()) else {
            return Some(true);
        };
        for place in 0..count {
            self.steps = self.steps?.checked_sub(1);
            begun.push(place);
            let open = !self.breaks(association, begun) && self.opens(association, begun)?;
            begun.pop();
            if open {
                return Some(true);
            }
        }
        Some(false)
    }

    /// Does the newest access, with those before it, break a rule?
    fn breaks(&self, association: &[usize], begun: &[usize]) -> bool {
        let offers = self.offers(association).zip(begun);
        let chosen: Vec<&Candidate> = offers.map(|(offer, &k)| &offer.accesses[k]).collect();
        let newest = chosen[chosen.len() - 1];
        let mut rules = 0..self.rules.len();
        rules.any(|r| newest.concerns(r) && alike::break_rule(&self.rules, r, &chosen))
    }
}
