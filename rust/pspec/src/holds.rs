//! The plans that are held.

use crate::raw::{self, WORDS};
use crate::stored::{numbers, words};
use crate::{Accesses, WrongLength};
use std::fmt;

/// The plans that are held: at most eight, over all users together. While there are eight, every ask is
/// refused ([`Refusal::PlacesFull`](crate::Refusal::PlacesFull)).
///
/// To be stored it is 2,112 bytes, each number little-endian: the users of places 0 to 7 and then their
/// numbers, 32 bits each; then for each place 32 words of 64 bits, laid out as those of a user in a
/// [`Ledger`](crate::Ledger). A place whose number is 0 is empty. Any bytes make one, so whoever can write
/// them decides what users may commit.
///
/// ```
/// use pspec::{Book, Holds, Ledger, Plan, Tally, WrongLength};
///
/// # let bytes = books::named::small_shop().bytes();
/// let book = Book::new(bytes)?; // the small shop
/// let state = Plan::new([1, 0, 0, 0, 4, 0, 0, 0]); // leaf 2, put out
/// let (ledger, mut tally, mut holds) = (Ledger::new(), Tally::new(), Holds::new());
/// assert!(!book.ask(7, &state, &ledger, &mut tally, &mut holds).is_held()); // there is no user 7
/// assert!(book.ask(2, &state, &ledger, &mut tally, &mut holds).is_held());
///
/// let stored = holds.to_bytes();
/// assert_eq!((stored[0], stored[32], stored[64]), (2, 1, 1 << 2));
/// let again = Holds::from_bytes(&stored)?;
/// assert!(!again.is_full());
/// let held: Vec<_> = again.iter().map(|hold| (hold.user, hold.number)).collect();
/// assert_eq!(held, [(2, 1)]);
///
/// let wrong = WrongLength { found: 0, expected: 2_112 };
/// assert_eq!(Holds::from_bytes(&[]), Err(wrong));
/// # Ok::<(), Box<dyn std::error::Error>>(())
/// ```
#[derive(Clone, Default, PartialEq, Eq, Hash)]
pub struct Holds {
    record: raw::Holds,
}

/// A plan that is held.
#[derive(Clone, Copy, Debug, PartialEq, Eq, Hash)]
pub struct Hold {
    /// The user who asked.
    pub user: u32,
    /// The number that he was given.
    pub number: u32,
    /// The accesses of the plan, by itself.
    pub accesses: Accesses,
}

impl Holds {
    /// The bytes of a stored hold record: two numbers of 4 bytes and 32 words of 8 for each place.
    pub const BYTES: usize = raw::PLACES * (2 * 4 + 8 * WORDS);

    /// A fresh one: nothing is held.
    pub fn new() -> Holds {
        Holds::default()
    }

    /// The plans that are held, by their places.
    pub fn iter(&self) -> impl Iterator<Item = Hold> + '_ {
        let places = self.record.users.iter().zip(&self.record.numbers);
        let places = places.zip(self.record.words.chunks_exact(WORDS));
        let taken = places.filter(|((_, &number), _)| number != 0);
        taken.map(|((&user, &number), words)| Hold {
            user,
            number,
            accesses: Accesses::of(words),
        })
    }

    /// Are eight held, so that no more can be?
    pub fn is_full(&self) -> bool {
        self.record.numbers.iter().all(|&number| number != 0)
    }

    /// The record as bytes, little-endian.
    pub fn to_bytes(&self) -> [u8; Holds::BYTES] {
        let mut bytes = [0; Holds::BYTES];
        let numbers = self.record.users.iter().chain(&self.record.numbers);
        let numbers = numbers.flat_map(|number| number.to_le_bytes());
        let words = self.record.words.iter().flat_map(|word| word.to_le_bytes());
        for (to, byte) in bytes.iter_mut().zip(numbers.chain(words)) {
            *to = byte;
        }
        bytes
    }

    /// The hold record that was stored as these bytes, if they are 2,112.
    pub fn from_bytes(bytes: &[u8]) -> Result<Holds, WrongLength> {
        let bytes: &[u8; Holds::BYTES] = WrongLength::exact(bytes)?;
        let (first, rest) = bytes.split_at(2 * 4 * raw::PLACES);
        let mut record = raw::Holds::default();
        let each = record.users.iter_mut().chain(&mut record.numbers);
        for (to, number) in each.zip(numbers(first)) {
            *to = number;
        }
        for (to, word) in record.words.iter_mut().zip(words(rest)) {
            *to = word;
        }
        Ok(Holds { record })
    }

    pub(crate) fn record_mut(&mut self) -> &mut raw::Holds {
        &mut self.record
    }
}

impl fmt::Debug for Holds {
    fn fmt(&self, f: &mut fmt::Formatter<'_>) -> fmt::Result {
        f.debug_list().entries(self.iter()).finish()
    }
}
