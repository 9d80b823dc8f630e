//! Which accesses of a plan break a rule.
//!
//! That the rule is broken is the engine's word. What breaks it is found here by a second look, which
//! decides nothing.

use crate::action::RuleAction;
use crate::contents::{Contents, Rule};
use crate::hierarchy::leaves;
use pspec::{Access, Action};

/// For each reference of a rule, the accesses that stand for it in some choice that no restriction
/// accepts; all empty where there is no such choice.
pub fn breaking(rule: &Rule, contents: &Contents, accesses: &[Access]) -> Vec<Vec<Access>> {
    let fitting: Vec<Vec<Access>> = rule
        .references
        .iter()
        .map(|reference| {
            let leaves = leaves(&contents.parents(), reference.category, &reference.excluded);
            let fits = |access: &&Access| {
                action_fits(access.action, reference.action) && leaves.contains(&access.leaf)
            };
            accesses.iter().filter(fits).copied().collect()
        })
        .collect();
    let taking_part = operations(rule, &fitting);
    let taken = |(of, part): (&Vec<Access>, u16)| {
        let takes_part = |access: &&Access| part >> access.operation & 1 == 1;
        of.iter().filter(takes_part).copied().collect()
    };
    fitting.iter().zip(taking_part).map(taken).collect()
}

/// Does an access of this action fit a rule's action? Like fits like, and both fit access.
fn action_fits(action: Action, named: RuleAction) -> bool {
    match (action, named) {
        (Action::Projection, RuleAction::Projection) => true,
        (Action::Projection, RuleAction::Condition) => false,
        (Action::Projection, RuleAction::Access) => true,
        (Action::Condition, RuleAction::Projection) => false,
        (Action::Condition, RuleAction::Condition) => true,
        (Action::Condition, RuleAction::Access) => true,
    }
}

/// For each reference, the mask of operations that take part in a choice which no restriction
/// accepts. What is chosen matters only by its operation.
fn operations(rule: &Rule, fitting: &[Vec<Access>]) -> [u16; 3] {
    let offered = |i: usize| match fitting.get(i) {
        Some(accesses) => accesses
            .iter()
            .fold(0u16, |mask, access| mask | 1 << access.operation),
        None => 1,
    };
    let has = |mask: u16| (0..16).filter(move |k| mask >> k & 1 == 1);
    let mut part = [0; 3];
    for i in has(offered(0)) {
        for j in has(offered(1)) {
            for k in has(offered(2)) {
                let choice = [i, j, k];
                let takes = |(&mask, &k): (&u16, &u8)| mask == 0 || mask >> k & 1 == 1;
                let accepts = |masks: &[u16; 3]| masks.iter().zip(&choice).all(takes);
                if !rule.restrictions.iter().any(accepts) {
                    (0..3).for_each(|r| part[r] |= 1 << choice[r]);
                }
            }
        }
    }
    part
}

#[cfg(test)]
mod tests {
    use super::*;

    #[test]
    fn the_six_cases() {
        let [projection, condition] = [Action::Projection, Action::Condition];
        assert!(action_fits(projection, RuleAction::Projection));
        assert!(!action_fits(projection, RuleAction::Condition));
        assert!(action_fits(projection, RuleAction::Access));
        assert!(!action_fits(condition, RuleAction::Projection));
        assert!(action_fits(condition, RuleAction::Condition));
        assert!(action_fits(condition, RuleAction::Access));
    }
}
