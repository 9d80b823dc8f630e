//! Whether a rule speaks of data that no operation can open.

use crate::{raw, Action};

/// Data as an association has them for one reference of a rule.
#[derive(Clone, Copy, Debug, PartialEq, Eq, PartialOrd, Ord, Hash)]
pub struct Datum {
    /// Put out, or decided by.
    pub action: Action,
    /// The number of the data category.
    pub leaf: u8,
}

impl Datum {
    /// The datum of a byte of [`raw::closed`]; none for an absent reference.
    fn of(byte: u8) -> Option<Datum> {
        let action = match byte & 64 {
            0 => Action::Projection,
            _ => Action::Condition,
        };
        let leaf = byte & 63;
        (byte & 128 != 0).then_some(Datum { action, leaf })
    }
}

/// Whether a rule permits data that no operation can open.
///
/// A rule names users and data, and operations under which they may be had. Another rule may demand
/// other operations of the same users and data, or forbid them; then nothing opens what the first one
/// seems to permit.
#[derive(Clone, Debug, PartialEq, Eq, Hash)]
#[must_use]
pub enum Blocking {
    /// Every user that the rule covers may have all its data, each association under some operations.
    Open,
    /// This user can't have these data together: whatever operations are chosen, some rule of the book
    /// is broken. They are the first; there may be others.
    Closed {
        /// The user's number.
        user: u32,
        /// One for each reference of the rule, in their order.
        data: Vec<Datum>,
    },
}

impl Blocking {
    /// What a value of [`raw::blocked`] says.
    pub(crate) fn of(value: u32) -> Blocking {
        match raw::closed(value) {
            None => Blocking::Open,
            Some((user, bytes)) => Blocking::Closed {
                user,
                data: bytes.into_iter().filter_map(Datum::of).collect(),
            },
        }
    }

    /// Can some operations open all that the rule speaks of?
    pub fn is_open(&self) -> bool {
        *self == Blocking::Open
    }
}

#[cfg(test)]
mod tests {
    use super::*;

    #[test]
    fn every_byte() {
        assert!((0..128).all(|byte| Datum::of(byte).is_none()));
        for leaf in 0..64 {
            let of = |action| Some(Datum { action, leaf });
            assert_eq!(Datum::of(128 + leaf), of(Action::Projection));
            assert_eq!(Datum::of(192 + leaf), of(Action::Condition));
        }
    }

    #[test]
    fn one_two_and_three_data() {
        let data = |value| match Blocking::of(value) {
            Blocking::Open => 0,
            Blocking::Closed { data, .. } => data.len(),
        };
        let one = 31 << 24 | 130;
        assert_eq!(data(0), 0);
        assert_eq!(data(one), 1);
        assert_eq!(data(one | 195 << 8), 2);
        assert_eq!(data(one | 195 << 8 | 255 << 16), 3);
    }
}
