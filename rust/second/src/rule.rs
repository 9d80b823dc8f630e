//! A rule: its users, its references and its restrictions.

use crate::access::{Access, Action};
use crate::operation::Operation;
use std::collections::BTreeSet;

/// A rule of an accepted book.
#[derive(Clone, Debug)]
pub struct Rule {
    /// The users (leaves) that its user category covers.
    pub users: BTreeSet<usize>,
    /// One to three references.
    pub references: Vec<Reference>,
    /// "restrictions m, 0 to 8; 0 forbids"
    pub restrictions: Vec<Restriction>,
}

/// A reference to data.
#[derive(Clone, Debug)]
pub struct Reference {
    /// The action that it names.
    pub action: RuleAction,
    /// The leaves that its category covers; "an empty set is allowed".
    pub leaves: BTreeSet<usize>,
}

/// The action that a rule names. Source document 001: "access is the parent of projection and
/// condition".
#[derive(Clone, Copy, Debug, PartialEq, Eq)]
pub enum RuleAction {
    /// The leaf is put out.
    Projection,
    /// The leaf decides something.
    Condition,
    /// "access, meaning either"
    Access,
}

/// A restriction: for each reference the operations of its mask.
#[derive(Clone, Debug)]
pub struct Restriction {
    /// "three masks, for references 0, 1, 2"
    pub masks: Vec<BTreeSet<Operation>>,
}

impl Reference {
    /// "with fitting action and covered leaf"
    pub fn fits(&self, access: &Access) -> bool {
        action_fits(access.action, self.action) && self.leaves.contains(&access.leaf)
    }
}

impl RuleAction {
    /// "action (1 projection, 2 condition, 3 access, meaning either)"; no other byte is one.
    pub fn of(byte: u8) -> Option<RuleAction> {
        match byte {
            1 => Some(RuleAction::Projection),
            2 => Some(RuleAction::Condition),
            3 => Some(RuleAction::Access),
            _ => None,
        }
    }
}

/// Does an access of this action fit a rule's action? Document 02, N4: "the six cases, projection or
/// condition against projection, condition or access, [..]: the two like pairs and both against
/// access fit, the other two don't."
pub fn action_fits(action: Action, named: RuleAction) -> bool {
    match (action, named) {
        (Action::Projection, RuleAction::Projection) => true,
        (Action::Projection, RuleAction::Condition) => false,
        (Action::Projection, RuleAction::Access) => true,
        (Action::Condition, RuleAction::Projection) => false,
        (Action::Condition, RuleAction::Condition) => true,
        (Action::Condition, RuleAction::Access) => true,
    }
}

impl Restriction {
    /// "each mask is zero or holds the chosen operation": for one reference.
    pub fn takes(&self, reference: usize, operation: Operation) -> bool {
        let mask = &self.masks[reference];
        mask.is_empty() || mask.contains(&operation)
    }

    /// "A restriction accepts when each mask is zero or holds the chosen operation."
    pub fn accepts(&self, choice: &[Access]) -> bool {
        let mut chosen = choice.iter().enumerate();
        chosen.all(|(reference, access)| self.takes(reference, access.operation))
    }
}

#[cfg(test)]
mod tests {
    use super::*;

    #[test]
    fn the_six_cases() {
        let [projection, condition] = [Action::Projection, Action::Condition];
        assert!(action_fits(projection, RuleAction::Projection));
        assert!(!action_fits(projection, RuleAction::Condition));
        assert!(action_fits(projection, RuleAction::Access));
        assert!(!action_fits(condition, RuleAction::Projection));
        assert!(action_fits(condition, RuleAction::Condition));
        assert!(action_fits(condition, RuleAction::Access));
    }

    #[test]
    fn the_action_byte() {
        assert_eq!(RuleAction::of(0), None);
        assert_eq!(RuleAction::of(1), Some(RuleAction::Projection));
        assert_eq!(RuleAction::of(2), Some(RuleAction::Condition));
        assert_eq!(RuleAction::of(3), Some(RuleAction::Access));
        assert_eq!(RuleAction::of(4), None);
        assert_eq!(RuleAction::of(255), None);
    }
}
