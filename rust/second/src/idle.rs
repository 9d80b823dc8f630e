//! The search for a user and a choice that break a rule alone.

use crate::access::Access;
use crate::alike::{self, Candidate};
use crate::book::Book;
use crate::breaking::breaks_alone;
use crate::choice;
use crate::path;
use crate::rule::Rule;
use crate::shown;
use std::collections::BTreeSet;

/// The first user and choice that break a rule alone, if any do.
pub type Found = Option<(usize, Vec<Access>)>;

/// How many "non-zero operations" a choice has: as many functions has its shown plan.
pub fn functions(choice: &[Access]) -> usize {
    choice.iter().filter(|access| !access.is_raw()).count()
}

/// Every user, and for each every choice in order, judged by its shown plan: "Choices, and with
/// them their users and shown plans, are ordered by user number, then reference by reference by
/// action (projection first), leaf, operation, lower numbers first; the first that breaks r alone
/// is shown." And document 02, N2: "Among choices for the same user, the one with the fewest
/// non-zero operations now comes first. Equal ones fall back to document 01's order."
pub fn naive(book: &Book, rule: usize) -> Found {
    let candidates = choice::fitting(&book.rules[rule], &book.obtainable());
    book.users.leaves().into_iter().find_map(|user| {
        let alone = |choice: &[Access]| {
            let accesses = path::accesses(book, &shown::plan(book, choice));
            breaks_alone(book, user, rule, &accesses)
        };
        let first = (0..=candidates.len()).find_map(|fewest| {
            let mut test = |choice: &[Access]| functions(choice) == fewest && alone(choice);
            choice::first(&candidates, &mut test)
        });
        first.map(|choice| (user, choice))
    })
}

/// The number of choices that `naive` tries for one user at most.
pub fn choices(book: &Book, rule: usize) -> u128 {
    let candidates = choice::fitting(&book.rules[rule], &book.obtainable());
    candidates.iter().map(|c| c.len() as u128).product()
}

/// The same answer sooner, or nothing after so many steps. It skips users whom the same rules cover
/// as one before, accesses that are alike to a better one, and choices whose first accesses break
/// another rule by themselves: more accesses break no fewer rules.
pub fn within(book: &Book, rule: usize, steps: u64) -> Option<Found> {
    let obtainable = book.obtainable();
    let mut steps = steps;
    let mut tried = BTreeSet::new();
    for user in book.users.leaves() {
        let covering = book.covering(user);
        if !covering.contains(&rule) || !tried.insert(covering.clone()) {
            continue;
        }
        let mut search = Search::new(book, rule, &covering, &obtainable, steps);
        let found = search.first();
        steps = search.steps?;
        if found.is_some() {
            return Some(found.map(|choice| (user, choice)));
        }
    }
    Some(None)
}

/// The search for one user. Rules are numbered among those that cover the user.
struct Search<'a> {
    rules: Vec<&'a Rule>,
    rule: usize,
    others: Vec<usize>,
    candidates: Vec<Vec<Candidate>>,
    /// What is left; nothing once too many were taken.
    steps: Option<u64>,
}

impl<'a> Search<'a> {
    fn new(
        book: &'a Book,
        rule: usize,
        covering: &[usize],
        obtainable: &BTreeSet<Access>,
        steps: u64,
    ) -> Search<'a> {
        let rules: Vec<&Rule> = covering.iter().map(|&r| &book.rules[r]).collect();
        let place = covering.iter().position(|&r| r == rule);
        let place = place.expect("the rule covers the user");
        let candidates = choice::fitting(&book.rules[rule], obtainable)
            .into_iter()
            .map(|fitting| best_of_each_kind(fitting, &rules))
            .collect();
        Search {
            others: (0..rules.len()).filter(|&r| r != place).collect(),
            rules,
            rule: place,
            candidates,
            steps: Some(steps),
        }
    }

    /// The first choice: of those without functions, else of those with one, and so on.
    fn first(&mut self) -> Option<Vec<Access>> {
        let mut fewest = 0..=self.candidates.len();
        fewest.find_map(|functions| self.extend(&mut Vec::new(), functions))
    }

    /// The first way to end a choice that begins with these places among the candidates, with so
    /// many more functions.
    fn extend(&mut self, begun: &mut Vec<usize>, functions: usize) -> Option<Vec<Access>> {
        let reference = begun.len();
        if reference == self.candidates.len() {
            return self.ends(begun);
        }
        for place in 0..self.candidates[reference].len() {
            let Some(left) = self.left(reference, place, functions) else {
                continue;
            };
            self.steps = self.steps?.checked_sub(1);
            begun.push(place);
            let open = !self.breaks_another(begun);
            let found = if open { self.extend(begun, left) } else { None };
            begun.pop();
            if found.is_some() {
                return found;
            }
        }
        None
    }

    /// The functions left for the references after this one, if these can have so many.
    fn left(&self, reference: usize, place: usize, functions: usize) -> Option<usize> {
        let access = self.candidates[reference][place].access;
        let left = functions.checked_sub(usize::from(!access.is_raw()))?;
        (left < self.candidates.len() - reference).then_some(left)
    }

    /// The choice, if it breaks the rule. It breaks no other: its beginnings were tried.
    fn ends(&self, begun: &[usize]) -> Option<Vec<Access>> {
        let chosen = self.chosen(begun);
        let broken = alike::break_rule(&self.rules, self.rule, &chosen);
        broken.then(|| chosen.iter().map(|c| c.access).collect())
    }

    fn chosen(&self, begun: &[usize]) -> Vec<&Candidate> {
        begun
            .iter()
            .enumerate()
            .map(|(reference, &place)| &self.candidates[reference][place])
            .collect()
    }

    /// Does the newest access, with those before it, break another rule? The last one to do so is
    /// asked first, as it often does again.
    fn breaks_another(&mut self, begun: &[usize]) -> bool {
        let chosen = self.chosen(begun);
        let newest = chosen[chosen.len() - 1];
        let breaker = self
            .others
            .iter()
            .position(|&r| newest.concerns(r) && alike::break_rule(&self.rules, r, &chosen));
        if let Some(place) = breaker {
            self.others[..=place].rotate_right(1);
        }
        breaker.is_some()
    }
}

/// Of accesses in order, those that come into question for the first choice. Of all that are alike
/// this is the first without a function, or else the first: with it instead of another of them a
/// choice breaks the same rules, and comes sooner.
fn best_of_each_kind(mut accesses: Vec<Access>, rules: &[&Rule]) -> Vec<Candidate> {
    accesses.sort_by_key(|access| !access.is_raw());
    let all = accesses.into_iter().map(|a| Candidate::new(a, rules));
    let mut best = alike::first_of_each_kind(all.collect());
    best.sort_by_key(|candidate| candidate.access);
    best
}
