//! An accepted book.

use crate::access::{Access, ACTIONS};
use crate::hierarchy::Hierarchy;
use crate::operation::Operation;
use crate::rule::Rule;
use std::collections::BTreeSet;

/// What the bytes of an accepted book say.
#[derive(Clone, Debug)]
pub struct Book {
    /// Block 0. "A user is a leaf of block 0."
    pub users: Hierarchy,
    /// Block 1, of either kind.
    pub data: Hierarchy,
    /// The operations that each data category supports.
    pub supported: Vec<BTreeSet<Operation>>,
    /// Block 2: the label of each column, "a data leaf, or 255 for unlabelled".
    pub columns: Vec<Option<usize>>,
    /// Block 3: "the operation 0 to 15 of function i".
    pub functions: Vec<Operation>,
    /// "Further blocks, kind 5, one rule each, rule 0 first."
    pub rules: Vec<Rule>,
}

impl Book {
    /// "An access can be had if some column has its label and its operation is 0 or is supported by
    /// the label and belongs to some function."
    pub fn can_be_had(&self, access: &Access) -> bool {
        let labelled = self.columns.contains(&Some(access.leaf));
        labelled && (access.operation == 0 || self.can_be_applied(access))
    }

    fn can_be_applied(&self, access: &Access) -> bool {
        self.supported[access.leaf].contains(&access.operation)
            && self.functions.contains(&access.operation)
    }

    /// The numbers of all rules.
    pub fn all_rules(&self) -> BTreeSet<usize> {
        (0..self.rules.len()).collect()
    }

    /// The rules that cover a user, lowest first.
    pub fn covering(&self, user: usize) -> Vec<usize> {
        (0..self.rules.len())
            .filter(|&r| self.rules[r].users.contains(&user))
            .collect()
    }

    /// Every access that can be had.
    pub fn obtainable(&self) -> BTreeSet<Access> {
        let mut found = BTreeSet::new();
        for action in ACTIONS {
            for leaf in self.data.leaves() {
                let all = (0..16).map(|operation| Access {
                    action,
                    leaf,
                    operation,
                });
                found.extend(all.filter(|access| self.can_be_had(access)));
            }
        }
        found
    }
}
