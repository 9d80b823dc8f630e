//! The six cases of the test that fits an access to a rule's action (document 02, N4), each answered
//! the other way: which verdicts depend on it.

use second::access::Action;
use second::book::Book;
use second::rule::{Reference, RuleAction};
use second::{breaking, path, plan, reading};

/// The action of an access against the action of a rule.
pub type Pair = (Action, RuleAction);

/// "projection or condition against projection, condition or access"
pub const PAIRS: [Pair; 6] = [
    (Action::Projection, RuleAction::Projection),
    (Action::Projection, RuleAction::Condition),
    (Action::Projection, RuleAction::Access),
    (Action::Condition, RuleAction::Projection),
    (Action::Condition, RuleAction::Condition),
    (Action::Condition, RuleAction::Access),
];

/// The book as an engine takes it that answers this pair the other way.
pub fn other_way(book: &Book, pair: Pair) -> Book {
    let mut book = book.clone();
    let references = book.rules.iter_mut().flat_map(|rule| &mut rule.references);
    references.for_each(|reference| change(reference, pair));
    book
}

/// A reference of the pair's action gets another one, whose answer differs for this pair alone; or
/// it loses its leaves, where nothing is to fit it.
fn change(reference: &mut Reference, pair: Pair) {
    if reference.action != pair.1 {
        return;
    }
    match pair {
        (Action::Projection, RuleAction::Projection) => reference.leaves.clear(),
        (Action::Projection, RuleAction::Condition) => reference.action = RuleAction::Access,
        (Action::Projection, RuleAction::Access) => reference.action = RuleAction::Condition,
        (Action::Condition, RuleAction::Projection) => reference.action = RuleAction::Access,
        (Action::Condition, RuleAction::Condition) => reference.leaves.clear(),
        (Action::Condition, RuleAction::Access) => reference.action = RuleAction::Projection,
    }
}

/// For each pair, does the verdict on a user and a plan depend on it? None for what is refused.
pub fn verdict_depends(book: &[u8], user: usize, plan: &[u8]) -> Option<[bool; 6]> {
    let book = reading::read(book).ok()?;
    let rows = plan::read(plan, &book).ok()?;
    let accesses = path::accesses(&book, &rows);
    let broken = |book: &Book| breaking::broken(book, user, &accesses);
    let right = broken(&book);
    Some(PAIRS.map(|pair| broken(&other_way(&book, pair)) != right))
}

#[cfg(test)]
mod tests {
    use super::*;
    use second::access::Access;

    /// The pair itself is answered the other way, the five others are not.
    #[test]
    fn one_pair_is_answered_the_other_way() {
        for pair in PAIRS {
            for (action, named) in PAIRS {
                let access = Access {
                    action,
                    leaf: 3,
                    operation: 0,
                };
                let reference = Reference {
                    action: named,
                    leaves: [3].into(),
                };
                let mut changed = reference.clone();
                change(&mut changed, pair);
                let differs = changed.fits(&access) != reference.fits(&access);
                assert_eq!(differs, (action, named) == pair, "{pair:?}");
            }
        }
    }
}
