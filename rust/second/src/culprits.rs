//! The few rules behind a block: which others, beside the asking rule, leave the user and association
//! of Blocked closed (document 02, N6).

use crate::alike::{self, Candidate};
use crate::blocked::{self, candidates, opens, Datum};
use crate::book::Book;
use crate::choice;
use crate::rule::Rule;
use std::collections::BTreeSet;

/// The rules besides the asking one; none for a rule that is not blocked.
pub type Others = Option<BTreeSet<usize>>;

/// "For the user and association of N1, give a mask of other rules that, together with the asking
/// rule, still leave that association closed". Every choice of operations is tried for each drop.
pub fn naive(book: &Book, rule: usize) -> Others {
    let (user, association) = blocked::naive(book, rule)?;
    let closed = |others: &BTreeSet<usize>| {
        let together = others | &BTreeSet::from([rule]);
        !opens(book, &together, user, &association)
    };
    Some(left_by_trial(book, rule, closed))
}

/// "Rules are dropped by trial from the highest number down, which fixes the mask." A drop is kept
/// when the association stays closed; the asking rule is no "other rule", and always counts.
fn left_by_trial(
    book: &Book,
    rule: usize,
    closed: impl Fn(&BTreeSet<usize>) -> bool,
) -> BTreeSet<usize> {
    let mut left = book.all_rules();
    left.remove(&rule);
    for dropped in left.clone().into_iter().rev() {
        left.remove(&dropped);
        if !closed(&left) {
            left.insert(dropped);
        }
    }
    left
}

/// The same answer sooner, or nothing when Blocked takes more than so many steps. The choices of
/// operations are gone through once: rules leave an association closed when each choice breaks one of
/// them.
pub fn within(book: &Book, rule: usize, steps: u64) -> Option<Others> {
    let Some((user, association)) = blocked::within(book, rule, steps)? else {
        return Some(None);
    };
    let by_choice = broken_by_choice(book, user, &association);
    let closed = |others: &BTreeSet<usize>| {
        let mut choices = by_choice.iter();
        choices.all(|broken| broken.contains(&rule) || !broken.is_disjoint(others))
    };
    Some(Some(left_by_trial(book, rule, closed)))
}

/// The rules that a choice of operations breaks, for each choice, of those that are alike one.
pub fn broken_by_choice(
    book: &Book,
    user: usize,
    association: &[Datum],
) -> BTreeSet<BTreeSet<usize>> {
    let covering = book.covering(user);
    let rules: Vec<&Rule> = covering.iter().map(|&r| &book.rules[r]).collect();
    let data = association.iter();
    let data: Vec<Vec<Candidate>> = data.map(|d| candidates(book, &rules, d)).collect();
    let offered: Vec<Vec<&Candidate>> = data.iter().map(|of| of.iter().collect()).collect();
    let mut by_choice = BTreeSet::new();
    choice::first(&offered, &mut |chosen: &[&Candidate]| {
        let broken = (0..rules.len()).filter(|&r| alike::break_rule(&rules, r, chosen));
        by_choice.insert(broken.map(|r| covering[r]).collect());
        false
    });
    by_choice
}

#[cfg(test)]
mod tests {
    use super::*;
    use crate::reading;
    use books::named::{opposed_shop, small_shop};

    /// Both searches, for each rule.
    fn of_each(draft: &books::Draft) -> Vec<Others> {
        let book = reading::read(&draft.bytes()).expect("it is accepted");
        let both = |rule: usize| {
            let naive = naive(&book, rule);
            assert_eq!(within(&book, rule, u64::MAX), Some(naive.clone()));
            naive
        };
        (0..book.rules.len()).map(both).collect()
    }

    #[test]
    fn no_rule_of_the_shop_is_blocked() {
        assert_eq!(of_each(&small_shop()), [None, None, None]);
    }

    /// Rule 1 asks for avg of a price and rule 3 for sum. Rule 0 takes both, so it needs the two. Rule 2
    /// asks for avg itself, and so it needs rule 3 alone, as rule 1 does; rule 3 needs rule 1, as its
    /// data have no address beside the price.
    #[test]
    fn the_owners_own_case() {
        let few = |rules: &[usize]| Some(rules.iter().copied().collect());
        let wanted = [few(&[1, 3]), few(&[3]), few(&[3]), few(&[1])];
        assert_eq!(of_each(&opposed_shop()), wanted);
    }

    /// The choices of rule 0's first association are a state beside a price raw, under avg and under
    /// sum, and the user is Report.
    #[test]
    fn what_each_choice_breaks() {
        let book = reading::read(&opposed_shop().bytes()).expect("it is accepted");
        let (user, association) = blocked::naive(&book, 0).expect("it is closed");
        let [raw, avg, sum] = [[0, 1, 2, 3].into(), [3].into(), [1, 2].into()];
        let wanted = BTreeSet::from([raw, avg, sum]);
        assert_eq!(broken_by_choice(&book, user, &association), wanted);
    }
}
