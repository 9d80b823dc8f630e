//! The records as each engine has them.

use books::edits::Record;
use books::records::{Holds, Records, Tally};
#[cfg(feature = "engine")]
use pspec::raw;
use second::Counts;

/// Calls the second implementation with a ledger, a tally and a hold record of its own kind.
pub(crate) fn by_second<T>(
    records: &mut Records,
    call: impl FnOnce(&mut [u64], &mut second::Tally, &mut second::Holds) -> T,
) -> T {
    let mut tally = second::Tally {
        users: std::array::from_fn(|user| counts(&records.tally, user)),
    };
    let mut holds = places(&records.holds);
    let answer = call(&mut records.ledger, &mut tally, &mut holds);
    records.tally = Tally {
        admitted: tally.users.map(|counts| counts.admitted),
        declined: tally.users.map(|counts| counts.declined),
        dropped: tally.users.map(|counts| counts.dropped),
    };
    records.holds.users = holds.places.map(|place| place.user);
    records.holds.numbers = holds.places.map(|place| place.number);
    let words = holds.places.map(|place| place.words);
    records.holds.words.copy_from_slice(words.as_flattened());
    answer
}

/// Calls the second implementation with the record of an edit of its own kind.
pub(crate) fn edited_by_second<T>(
    record: &mut Record,
    call: impl FnOnce(&mut second::editing::Record) -> T,
) -> T {
    let mut own = second::editing::Record {
        blocks: record.blocks.clone(),
        rules: record.rules,
        marks: record.marks,
    };
    let answer = call(&mut own);
    *record = Record {
        blocks: own.blocks,
        rules: own.rules,
        marks: own.marks,
    };
    answer
}

/// Calls the engine with records as C has them.
#[cfg(feature = "engine")]
pub(crate) fn by_engine(
    records: &mut Records,
    call: impl FnOnce(&mut [u64], &mut raw::Tally, &mut raw::Holds) -> u64,
) -> u64 {
    let Records {
        ledger,
        tally: Tally {
            admitted,
            declined,
            dropped,
        },
        holds: Holds {
            users,
            numbers,
            words,
        },
    } = records;
    let mut tally = raw::Tally {
        admitted: *admitted,
        declined: *declined,
        dropped: *dropped,
    };
    let mut holds = raw::Holds {
        users: *users,
        numbers: *numbers,
        words: *words,
    };
    let answer = call(ledger, &mut tally, &mut holds);
    (*admitted, *declined, *dropped) = (tally.admitted, tally.declined, tally.dropped);
    (*users, *numbers, *words) = (holds.users, holds.numbers, holds.words);
    answer
}

/// The counts of a user.
pub fn counts(tally: &Tally, user: usize) -> Counts {
    Counts {
        admitted: tally.admitted[user],
        declined: tally.declined[user],
        dropped: tally.dropped[user],
    }
}

/// The hold record, place by place.
pub fn places(holds: &Holds) -> second::Holds {
    let place = |place: usize| second::Place {
        user: holds.users[place],
        number: holds.numbers[place],
        words: holds.words_of(place).try_into().expect("a place has 32"),
    };
    second::Holds {
        places: std::array::from_fn(place),
    }
}

#[cfg(test)]
mod tests {
    use super::*;
    use books::valid::{draft, Size};
    use books::{reserve, Random};

    /// Any records come back, places that are empty with what is in them.
    #[test]
    fn records_of_either_kind() {
        let mut random = Random::new(8);
        for _ in 0..200 {
            let draft = draft(&mut random, Size::Small);
            let before = reserve::settle(&mut random, &draft, &[]).records;
            let mut after = before.clone();
            by_second(&mut after, |_, _, _| ());
            assert_eq!(after, before);
            #[cfg(feature = "engine")]
            assert_eq!(by_engine(&mut after, |_, _, _| 7), 7);
            assert_eq!(after, before);
        }
    }
}
