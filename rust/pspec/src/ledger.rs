//! What users have already seen.

use crate::raw::{LEDGER, WORDS};
use crate::{stored, Accesses, WrongLength};
use std::fmt;

/// The accesses of each user's admitted plans: of those that were committed, and of no plan that is held.
///
/// To be stored it is 8,192 bytes: its 1,024 words of 64 bits in order, each little-endian. Bit d
/// of word 32 × user + 16 × s + k is the user's access to leaf d by operation k, s being 0 for projection
/// and 1 for condition. Any bytes make one, so whoever can write them decides what users seem to have seen.
///
/// ```
/// # use pspec::Ledger;
/// let fresh = Ledger::new();
/// assert_eq!(fresh.to_bytes(), [0; Ledger::BYTES]);
/// assert_eq!(Ledger::from_bytes(&fresh.to_bytes())?, fresh);
/// assert!(Ledger::from_bytes(&[0; Ledger::BYTES - 1]).is_err());
/// # Ok::<(), pspec::WrongLength>(())
/// ```
#[derive(Clone, PartialEq, Eq, Hash)]
pub struct Ledger {
    // On the heap, as it is 8 KiB.
    words: Box<[u64; LEDGER]>,
}

impl Ledger {
    /// The bytes of a stored ledger.
    pub const BYTES: usize = 8 * LEDGER;

    /// A fresh one: no user has seen anything.
    pub fn new() -> Ledger {
        let words = Box::new([0; LEDGER]);
        Ledger { words }
    }

    /// The accesses of a user's admitted plans: none for a number that no user can have.
    pub fn accesses(&self, user: u32) -> Accesses {
        let words = self.words.chunks_exact(WORDS).nth(user as usize);
        Accesses::of(words.unwrap_or(&[0; WORDS]))
    }

    /// The words as bytes, little-endian.
    pub fn to_bytes(&self) -> Vec<u8> {
        self.words.iter().flat_map(|w| w.to_le_bytes()).collect()
    }

    /// The ledger that was stored as these bytes, if they are 8,192.
    pub fn from_bytes(bytes: &[u8]) -> Result<Ledger, WrongLength> {
        let bytes: &[u8; Ledger::BYTES] = WrongLength::exact(bytes)?;
        let mut ledger = Ledger::new();
        for (to, word) in ledger.words.iter_mut().zip(stored::words(bytes)) {
            *to = word;
        }
        Ok(ledger)
    }

    pub(crate) fn words(&self) -> &[u64] {
        &self.words[..]
    }

    pub(crate) fn words_mut(&mut self) -> &mut [u64] {
        &mut self.words[..]
    }
}

impl Default for Ledger {
    fn default() -> Ledger {
        Ledger::new()
    }
}

impl fmt::Debug for Ledger {
    fn fmt(&self, f: &mut fmt::Formatter<'_>) -> fmt::Result {
        let users = (0..(LEDGER / WORDS) as u32).map(|user| (user, self.accesses(user)));
        let some = users.filter(|(_, accesses)| accesses.iter().next().is_some());
        f.debug_map().entries(some).finish()
    }
}
