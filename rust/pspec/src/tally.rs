//! The counts beside a ledger.

use crate::stored::numbers;
use crate::{raw, WrongLength};

/// How many plans of each user were admitted, declined and dropped. Once these and his held plans are
/// 1,000,000 or more together, his asks are refused
/// ([`Refusal::CountsFull`](crate::Refusal::CountsFull)); those of other users go on.
///
/// To be stored it is 384 bytes: the admitted plans of users 0 to 31, then the declined ones, then the
/// dropped ones, each count as 32 bits, little-endian. A tally of 256 bytes is from before plans could be
/// dropped: with 128 zero bytes behind them it comes back. One of 8 bytes, when a pair of counts was
/// common to all users, does not, as its counts can't be told apart by user.
///
/// ```
/// # use pspec::{Tally, WrongLength};
/// let mut stored = [0; Tally::BYTES];
/// (stored[4 * 2], stored[4 * 2 + 1]) = (2, 1); // the admitted plans of user 2
/// stored[128 + 4 * 2] = 3; // those declined
/// stored[256 + 4 * 2] = 5; // those dropped
/// let tally = Tally::from_bytes(&stored)?;
/// let counts = |user| (tally.admitted(user), tally.declined(user), tally.dropped(user));
/// assert_eq!(counts(2), (258, 3, 5));
/// assert_eq!(counts(1), (0, 0, 0));
/// assert_eq!(tally.to_bytes(), stored);
///
/// let older = &stored[..256];
/// assert_eq!(Tally::from_bytes(older), Err(WrongLength { found: 256, expected: 384 }));
/// assert_eq!(Tally::from_bytes(&[older, &[0; 128]].concat())?.dropped(2), 0);
/// # Ok::<(), WrongLength>(())
/// ```
#[derive(Clone, Copy, Debug, Default, PartialEq, Eq, Hash)]
pub struct Tally {
    counts: raw::Tally,
}

impl Tally {
    /// The bytes of a stored tally: three counts of 4 bytes for each of 32 user numbers.
    pub const BYTES: usize = 3 * 4 * 32;

    /// A fresh one: all counts are 0.
    pub fn new() -> Tally {
        Tally::default()
    }

    /// The plans of a user that were admitted: 0 for a number above 31, which no user can have.
    pub fn admitted(&self, user: u32) -> u32 {
        count_of(&self.counts.admitted, user)
    }

    /// The plans of a user that were declined: 0 for a number above 31, which no user can have.
    pub fn declined(&self, user: u32) -> u32 {
        count_of(&self.counts.declined, user)
    }

    /// The plans of a user that were dropped: 0 for a number above 31, which no user can have.
    pub fn dropped(&self, user: u32) -> u32 {
        count_of(&self.counts.dropped, user)
    }

    /// The counts as bytes, little-endian.
    pub fn to_bytes(&self) -> [u8; Tally::BYTES] {
        let mut bytes = [0; Tally::BYTES];
        let raw::Tally {
            admitted,
            declined,
            dropped,
        } = &self.counts;
        let counts = admitted.iter().chain(declined).chain(dropped);
        for (bytes, count) in bytes.chunks_exact_mut(4).zip(counts) {
            bytes.copy_from_slice(&count.to_le_bytes());
        }
        bytes
    }

    /// The tally that was stored as these bytes, if they are 384.
    pub fn from_bytes(bytes: &[u8]) -> Result<Tally, WrongLength> {
        let bytes: &[u8; Tally::BYTES] = WrongLength::exact(bytes)?;
        let mut counts = raw::Tally::default();
        let each = counts.admitted.iter_mut().chain(&mut counts.declined);
        let each = each.chain(&mut counts.dropped);
        for (to, count) in each.zip(numbers(bytes)) {
            *to = count;
        }
        Ok(Tally { counts })
    }

    pub(crate) fn counts_mut(&mut self) -> &mut raw::Tally {
        &mut self.counts
    }
}

/// The count of a user; 0 for a number past the last.
fn count_of(counts: &[u32; 32], user: u32) -> u32 {
    counts.get(user as usize).copied().unwrap_or(0)
}
