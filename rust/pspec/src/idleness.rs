//! Whether a rule is idle.

use crate::Plan;

/// Whether a rule could go without letting anything more through.
///
/// Of two equal rules each is idle beside the other, and only one may go: delete one idle rule, then
/// ask again.
#[derive(Clone, Debug, PartialEq, Eq, Hash)]
#[must_use]
pub enum Idleness {
    /// No user and plan break this rule alone.
    Idle,
    /// This user and this plan break this rule and no other. No lower user does with any plan, and
    /// this user with no plan of the shown form that has fewer functions. Of such plans with as few
    /// it is the first, reference by reference: output before condition, then by leaf, then by
    /// operation.
    Needed {
        /// The user's number.
        user: u32,
        /// The plan: for each reference of the rule a column, a function or none, and an output or
        /// a condition.
        plan: Plan,
    },
}

impl Idleness {
    /// Does no user and plan break the rule alone?
    pub fn is_idle(&self) -> bool {
        *self == Idleness::Idle
    }
}
