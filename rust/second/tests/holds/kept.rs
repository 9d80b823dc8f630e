//! Records with one book, and calls with what is replied to them.

use books::draft::Draft;
use books::histories::{self, Act, Call};
use second::holds::PLACES;
use second::{Asked, Counts, Holds, Place, Refusal, Tally};

pub const REPORT: u32 = 1;
pub const MARKETING: u32 = 2;

/// The state, put out.
pub const STATE: [u8; 8] = [1, 0, 0, 0, 4, 0, 0, 0];
/// The price, put out.
pub const PRICE: [u8; 8] = [1, 2, 0, 0, 4, 0, 0, 0];
/// The price as a condition.
pub const BY_PRICE: [u8; 8] = [1, 2, 0, 0, 5, 0, 0, 0];
/// The average price, put out.
pub const AVERAGE: [u8; 12] = [1, 2, 0, 0, 2, 1, 0, 255, 4, 1, 0, 0];
/// The sum of prices, put out.
pub const SUM: [u8; 12] = [1, 2, 0, 0, 2, 2, 0, 255, 4, 1, 0, 0];

/// The bits of the state and of the price.
pub const STATE_BIT: u64 = 1 << 2;
pub const PRICE_BIT: u64 = 1 << 4;

/// What is replied to a call that is not refused.
#[derive(Clone, Copy, Debug, PartialEq, Eq)]
pub enum Reply {
    Asked(Asked),
    Settled(u32),
}

pub type Said = Result<Reply, Refusal>;

pub fn ask(user: u32, plan: &[u8]) -> Call {
    Call::ask(user, plan.to_vec())
}

pub fn commit(user: u32, number: u32) -> Call {
    let act = Act::Commit(number);
    Call { user, act }
}

pub fn drop_hold(user: u32, number: u32) -> Call {
    let act = Act::Drop(number);
    Call { user, act }
}

pub fn held(number: u32) -> Said {
    Ok(Reply::Asked(Asked { mask: 0, number }))
}

pub fn declined(mask: u32) -> Said {
    Ok(Reply::Asked(Asked { mask, number: 0 }))
}

pub fn settled(number: u32) -> Said {
    Ok(Reply::Settled(number))
}

pub fn refused(number: u32) -> Said {
    Err(Refusal::of(number))
}

/// The three records, with one book.
#[derive(Clone)]
pub struct Kept {
    pub book: Vec<u8>,
    pub ledger: Vec<u64>,
    pub tally: Tally,
    pub holds: Holds,
}

impl Kept {
    pub fn fresh(draft: &Draft) -> Kept {
        Kept::with_book(&draft.bytes())
    }

    pub fn with_book(book: &[u8]) -> Kept {
        Kept {
            book: book.to_vec(),
            ledger: vec![0; 1_024],
            tally: Tally::default(),
            holds: Holds::default(),
        }
    }

    /// Makes a call. Where it is refused the records are as they were.
    pub fn call(&mut self, call: &Call) -> Said {
        let before = self.clone();
        let said = self.answer(call);
        if said.is_err() {
            let records = |kept: &Kept| (kept.ledger.clone(), kept.tally, kept.holds);
            assert_eq!(records(self), records(&before));
        }
        said
    }

    fn answer(&mut self, call: &Call) -> Said {
        let Kept {
            book,
            ledger,
            tally,
            holds,
        } = self;
        let user = call.user;
        match &call.act {
            Act::Ask(plan) => second::ask(book, user, plan, ledger, tally, holds).map(Reply::Asked),
            Act::Commit(number) => {
                second::commit(book, user, *number, ledger, tally, holds).map(Reply::Settled)
            }
            Act::Drop(number) => {
                second::drop_hold(book, user, *number, ledger, tally, holds).map(Reply::Settled)
            }
        }
    }

    /// Makes calls, and compares what is replied to each.
    pub fn replies(&mut self, calls: &[(Call, Said)]) {
        for (i, (call, said)) in calls.iter().enumerate() {
            assert_eq!(self.call(call), *said, "call {i}: {call:?}");
        }
    }

    /// Asks, and commits what is held: the mask.
    pub fn admit(&mut self, user: u32, plan: &[u8]) -> Result<u32, Refusal> {
        let said = self.call(&ask(user, plan))?;
        let Reply::Asked(Asked { mask, number }) = said else {
            panic!("an ask replies {said:?}");
        };
        if number != 0 {
            assert_eq!(mask, 0);
            self.replies(&[(commit(user, number), settled(number))]);
        }
        Ok(mask)
    }

    /// The words that are not 0, by place.
    pub fn words(&self) -> Vec<(usize, u64)> {
        not_zero(&self.ledger)
    }

    /// The counts of a user, to be changed.
    pub fn counts(&mut self, user: u32) -> &mut Counts {
        &mut self.tally.users[user as usize]
    }

    /// The counts that are not fresh, by user.
    pub fn counted(&self) -> Vec<(u32, Counts)> {
        let all = (0..).zip(self.tally.users);
        all.filter(|(_, counts)| *counts != Counts::default())
            .collect()
    }

    /// The places that are not all zero: the user, the number and the words that are not 0.
    pub fn places(&self) -> Vec<(usize, Kind)> {
        let all = self.holds.places.iter().enumerate();
        all.filter(|(_, place)| **place != Place::default())
            .map(|(i, place)| (i, (place.user, place.number, not_zero(&place.words))))
            .collect()
    }
}

/// What is in a place.
pub type Kind = (u32, u32, Vec<(usize, u64)>);

fn not_zero(words: &[u64]) -> Vec<(usize, u64)> {
    let all = words.iter().copied().enumerate();
    all.filter(|&(_, word)| word != 0).collect()
}

pub fn counts(admitted: u32, declined: u32, dropped: u32) -> Counts {
    Counts {
        admitted,
        declined,
        dropped,
    }
}

/// A place with some words.
pub fn place(user: u32, number: u32, words: &[(usize, u64)]) -> Place {
    let mut place = Place {
        user,
        number,
        words: [0; 32],
    };
    words.iter().for_each(|&(i, word)| place.words[i] = word);
    place
}

/// Eight places of one kind, with numbers from the one on.
pub fn eight(user: u32, first: u32) -> Holds {
    let mut number = first;
    Holds {
        places: [(); PLACES].map(|()| {
            number += 1;
            place(user, number - 1, &[])
        }),
    }
}

impl histories::Kept for Kept {
    fn fresh(book: &[u8]) -> Kept {
        Kept::with_book(book)
    }

    fn answer(&mut self, call: &Call) -> Option<u32> {
        match self.call(call).ok()? {
            Reply::Asked(asked) => Some(asked.number).filter(|&number| number != 0),
            Reply::Settled(number) => Some(number),
        }
    }
}
