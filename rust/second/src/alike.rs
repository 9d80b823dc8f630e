//! Accesses that no rule tells apart.
//!
//! A rule sees of an access which reference it fits and which restrictions take its operation,
//! nothing else. Two accesses seen alike by every rule can stand for each other in any set, so of
//! all that are alike one is enough: that which comes first in the order of the search.

use crate::access::Access;
use crate::rule::Rule;
use std::collections::BTreeSet;

/// What one rule sees of an access that fits one of its references. It fits no second one: "The
/// leaf sets of a rule's references share no leaf".
#[derive(Clone, Debug, PartialEq, Eq, PartialOrd, Ord)]
pub struct Seen {
    reference: usize,
    taken_by: BTreeSet<usize>,
}

/// An access, and what each rule sees of it.
#[derive(Clone, Debug)]
pub struct Candidate {
    /// The access.
    pub access: Access,
    seen: Vec<Option<Seen>>,
}

impl Candidate {
    /// An access before these rules.
    pub fn new(access: Access, rules: &[&Rule]) -> Candidate {
        let seen = rules.iter().map(|rule| see(rule, &access)).collect();
        Candidate { access, seen }
    }

    /// Does it fit a reference of this rule?
    pub fn concerns(&self, rule: usize) -> bool {
        self.seen[rule].is_some()
    }

    /// The restrictions that take it, if it fits this reference of this rule.
    fn at(&self, rule: usize, reference: usize) -> Option<&BTreeSet<usize>> {
        let seen = self.seen[rule].as_ref()?;
        (seen.reference == reference).then_some(&seen.taken_by)
    }
}

fn see(rule: &Rule, access: &Access) -> Option<Seen> {
    let reference = rule.references.iter().position(|r| r.fits(access))?;
    let taken_by = (0..rule.restrictions.len())
        .filter(|&j| rule.restrictions[j].takes(reference, access.operation))
        .collect();
    Some(Seen {
        reference,
        taken_by,
    })
}

/// The first of each kind of candidate, in their order.
pub fn first_of_each_kind(candidates: Vec<Candidate>) -> Vec<Candidate> {
    let mut kinds = BTreeSet::new();
    candidates
        .into_iter()
        .filter(|candidate| kinds.insert(candidate.seen.clone()))
        .collect()
}

/// The kinds of some candidates.
pub fn kinds(candidates: &[Candidate]) -> BTreeSet<Vec<Option<Seen>>> {
    candidates.iter().map(|c| c.seen.clone()).collect()
}

/// Do the chosen candidates break a rule that covers the user?
pub fn break_rule(rules: &[&Rule], rule: usize, chosen: &[&Candidate]) -> bool {
    let accepting: Vec<usize> = (0..rules[rule].restrictions.len()).collect();
    some_choice(rules, rule, chosen, 0, &accepting)
}

/// Is there a choice for this reference and those after it that no restriction accepts, where
/// `accepting` are the restrictions that take what is chosen before?
fn some_choice(
    rules: &[&Rule],
    rule: usize,
    chosen: &[&Candidate],
    reference: usize,
    accepting: &[usize],
) -> bool {
    if reference == rules[rule].references.len() {
        return accepting.is_empty();
    }
    let fitting = chosen.iter().filter_map(|c| c.at(rule, reference));
    for taken_by in fitting {
        let rest = accepting.iter().copied().filter(|j| taken_by.contains(j));
        let rest: Vec<usize> = rest.collect();
        if some_choice(rules, rule, chosen, reference + 1, &rest) {
            return true;
        }
    }
    false
}
