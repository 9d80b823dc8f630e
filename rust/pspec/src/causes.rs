//! Which few rules are behind a block.

use crate::{raw, Rules};

/// Which few rules close the data that a rule permits and no operation can open.
///
/// An editor begins with these. Of the rules, at least one of those named or the asking one has to change
/// before the data open. That one is enough is not said: other rules may close the same data too. A
/// function for an operation that none had may open them as well, and so may an operation that is no
/// longer withdrawn.
#[derive(Clone, Copy, Debug, PartialEq, Eq, Hash)]
#[must_use]
pub enum Causes {
    /// The rule is not blocked: [`Blocking::Open`](crate::Blocking::Open).
    Unblocked,
    /// These other rules and the asking one close the data. If any of these others are left out, the
    /// rest of them and the asking rule do not. The asking rule is not in the set; an empty set says
    /// that it closes the data by itself.
    Few(Rules),
}

impl Causes {
    /// What a value of [`raw::culprits`] says for this rule.
    pub(crate) fn of(value: u32, rule: u32) -> Causes {
        match raw::others(value, rule) {
            None => Causes::Unblocked,
            Some(mask) => Causes::Few(Rules::of(mask)),
        }
    }
}

#[cfg(test)]
mod tests {
    use super::*;

    #[test]
    fn an_empty_set_is_not_unblocked() {
        assert_eq!(Causes::of(0, 3), Causes::Unblocked);
        assert_eq!(Causes::of(1 << 3, 3), Causes::Few(Rules::of(0)));
        assert_eq!(Causes::of(0b1010, 3), Causes::Few(Rules::of(0b10)));
    }
}
