//! What a plan gives away.

use crate::raw::WORDS;
use std::fmt;

/// What is done with a value.
#[derive(Clone, Copy, Debug, PartialEq, Eq, PartialOrd, Ord, Hash)]
pub enum Action {
    /// It is put out.
    Projection,
    /// Something is decided by it.
    Condition,
}

/// One access: a leaf of the data, under an operation.
#[derive(Clone, Copy, Debug, PartialEq, Eq, PartialOrd, Ord, Hash)]
pub struct Access {
    /// Put out, or decided by.
    pub action: Action,
    /// The number of the data category.
    pub leaf: u8,
    /// The number of the operation, 0 for none.
    pub operation: u8,
}

/// The accesses of a plan.
#[derive(Clone, Copy, PartialEq, Eq, Hash)]
pub struct Accesses {
    words: [u64; WORDS],
}

impl Accesses {
    pub(crate) fn new(words: [u64; WORDS]) -> Accesses {
        Accesses { words }
    }

    /// Those of 32 words in a slice.
    pub(crate) fn of(slice: &[u64]) -> Accesses {
        let mut words = [0; WORDS];
        words.copy_from_slice(slice);
        Accesses { words }
    }

    /// The words as the engine writes them: bit d of word 16 × s + k is the access to leaf d by
    /// operation k, s being 0 for projection and 1 for condition.
    pub fn words(&self) -> &[u64; WORDS] {
        &self.words
    }

    /// Is this access among them?
    pub fn contains(&self, access: Access) -> bool {
        let s = usize::from(access.action == Action::Condition);
        let (d, k) = (access.leaf, usize::from(access.operation));
        d < 64 && k < 16 && self.words[16 * s + k] >> d & 1 == 1
    }

    /// All of them: projections first, then by leaf, then by operation.
    pub fn iter(&self) -> impl Iterator<Item = Access> + '_ {
        let all = [Action::Projection, Action::Condition]
            .into_iter()
            .flat_map(|action| (0..64).map(move |leaf| (action, leaf)))
            .flat_map(|(action, leaf)| {
                (0..16).map(move |operation| Access {
                    action,
                    leaf,
                    operation,
                })
            });
        all.filter(|&access| self.contains(access))
    }
}

impl fmt::Debug for Accesses {
    fn fmt(&self, f: &mut fmt::Formatter<'_>) -> fmt::Result {
        f.debug_set().entries(self.iter()).finish()
    }
}
