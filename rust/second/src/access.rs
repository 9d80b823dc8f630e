//! An access: what is done, to which leaf, under which operation.

use crate::operation::Operation;

/// What is done with a leaf. The order is document 01's: "by action (projection first)".
#[derive(Clone, Copy, Debug, PartialEq, Eq, PartialOrd, Ord, Hash)]
pub enum Action {
    /// It is put out.
    Projection,
    /// It decides something.
    Condition,
}

/// Both actions, in order.
pub const ACTIONS: [Action; 2] = [Action::Projection, Action::Condition];

/// "accesses (projection, label, operation)". The derived order is that of choices: "by action
/// (projection first), leaf, operation, lower numbers first".
#[derive(Clone, Copy, Debug, PartialEq, Eq, PartialOrd, Ord, Hash)]
pub struct Access {
    /// Projection or condition.
    pub action: Action,
    /// The label, a data leaf.
    pub leaf: usize,
    /// The operation of the path, 0 for none.
    pub operation: Operation,
}

impl Access {
    /// Is its operation 0? A plan for it then needs no function.
    pub fn is_raw(&self) -> bool {
        self.operation == 0
    }
}
