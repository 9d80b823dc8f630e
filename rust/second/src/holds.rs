//! The plans that are held: asked for, and neither committed nor dropped (document 02, N10).

use crate::access::Access;
use crate::ledger::{self, WORDS_OF_A_USER};
use std::collections::BTreeSet;

/// "At most eight are held over all users together"
pub const PLACES: usize = 8;

/// "The hold record stands beside the tally; fresh, it is empty." The default is fresh.
#[derive(Clone, Copy, Debug, Default, PartialEq, Eq)]
pub struct Holds {
    /// The places, the lowest first.
    pub places: [Place; PLACES],
}

/// A place of the hold record, "which keeps its user, number and accesses as asked". It is empty where
/// its number is 0, whatever else stands in it. The default is a place that was freed, or never taken.
#[derive(Clone, Copy, Debug, Default, PartialEq, Eq)]
pub struct Place {
    /// The user's number.
    pub user: u32,
    /// The hold's number.
    pub number: u32,
    /// The accesses, laid out as in Flows.
    pub words: [u64; WORDS_OF_A_USER],
}

impl Place {
    /// A place that keeps a hold.
    pub fn of(user: usize, number: u32, accesses: &BTreeSet<Access>) -> Place {
        let mut words = [0; WORDS_OF_A_USER];
        ledger::write(accesses, &mut words);
        let user = u32::try_from(user).expect("users are few");
        Place {
            user,
            number,
            words,
        }
    }

    /// The accesses as asked.
    pub fn accesses(&self) -> BTreeSet<Access> {
        ledger::accesses(&self.words)
    }

    fn is_empty(&self) -> bool {
        self.number == 0
    }

    /// Does it keep a hold of this user?
    fn is_of(&self, user: usize) -> bool {
        !self.is_empty() && usize::try_from(self.user) == Ok(user)
    }
}

impl Holds {
    /// The places with the holds of a user.
    pub fn of_user(&self, user: usize) -> impl Iterator<Item = &Place> {
        self.places.iter().filter(move |place| place.is_of(user))
    }

    /// "a hold takes the lowest empty place"; none "exactly while eight are held".
    pub fn lowest_empty(&self) -> Option<usize> {
        self.places.iter().position(Place::is_empty)
    }

    /// "the lowest place with that user and number is meant"
    pub fn lowest_with(&self, user: usize, number: u32) -> Option<usize> {
        let mut places = self.places.iter();
        places.position(|place| place.is_of(user) && place.number == number)
    }

    /// "a committed or dropped hold frees its place for the next": what it kept is taken out.
    pub fn free(&mut self, place: usize) -> Place {
        std::mem::take(&mut self.places[place])
    }
}

#[cfg(test)]
mod tests {
    use super::*;

    fn place(user: u32, number: u32) -> Place {
        let words = [u64::from(user + number); WORDS_OF_A_USER];
        Place {
            user,
            number,
            words,
        }
    }

    /// Two places are alike, one is nobody's, and the empty ones have something in them.
    fn holds() -> Holds {
        let places = [
            (1, 4),
            (2, 0),
            (2, 7),
            (1, 0),
            (40, 7),
            (2, 7),
            (2, 8),
            (1, 7),
        ];
        Holds {
            places: places.map(|(user, number)| place(user, number)),
        }
    }

    #[test]
    fn places_of_users() {
        let holds = holds();
        let numbers =
            |user| -> Vec<u32> { holds.of_user(user).map(|place| place.number).collect() };
        assert_eq!(numbers(0), [0; 0]);
        assert_eq!(numbers(1), [4, 7]);
        assert_eq!(numbers(2), [7, 7, 8]);
    }

    #[test]
    fn lowest_places() {
        let mut holds = holds();
        assert_eq!(holds.lowest_with(1, 7), Some(7));
        assert_eq!(holds.lowest_with(2, 7), Some(2));
        assert_eq!(
            [holds.lowest_with(1, 8), holds.lowest_with(0, 7)],
            [None; 2]
        );
        assert_eq!(
            [holds.lowest_with(1, 0), holds.lowest_with(2, 0)],
            [None; 2]
        );
        assert_eq!(holds.lowest_empty(), Some(1));
        holds.places[1] = place(5, 1);
        assert_eq!(holds.lowest_empty(), Some(3));
        holds.places[3] = place(u32::MAX, u32::MAX);
        assert_eq!(holds.lowest_empty(), None);
    }

    /// A freed place is all zero, and no other changes.
    #[test]
    fn freed_places() {
        let mut after = holds();
        assert_eq!(after.free(2), place(2, 7));
        let mut wanted = holds();
        wanted.places[2] = Place::default();
        assert_eq!(after, wanted);
        assert_eq!(after.places[2].words, [0; WORDS_OF_A_USER]);
        assert_eq!((after.places[2].user, after.places[2].number), (0, 0));
        assert_eq!(after.lowest_with(2, 7), Some(5));
    }
}
