//! Faults of the tally by user, and replies that depend on other users (document 02, N8 and N10).

use crate::steps::{raise, Asking, ByStep, Settling, Steps};
use crate::{assert_shown_again, FaultyEngine};
use against::alike::{try_alike, ALIKE};
use against::histories::try_history;
use against::kept::BySecond;
use against::records::counts;
use against::run::try_case;
use against::words::{join, Words};
use against::{Difference, Engine, Reached};
use books::alike::histories;
use books::histories::history;
use books::records::{Records, Tally, PLACES, USERS};
use books::valid::{self, Size};
use books::{case, reserve, Case, Random};
use second::ledger::words_of;
use second::Refusal;
use std::fmt::Debug;

#[derive(Clone, Copy, Debug, PartialEq, Eq)]
pub enum Fault {
    LooksAtUserZero,
    LooksAtTheNextUser,
    LooksAtEveryUser,
    LooksAtTheSumOverAll,
    LooksAtDeclinedOfAll,
    LooksAtDeclinedOfUserZero,
    LooksAtDroppedOfAll,
    KeepsCountsModulo16,
    RaisesAdmittedOfTheNext,
    RaisesAdmittedOfUserZero,
    RaisesDeclinedOfTheNext,
    RaisesDeclinedOfUserZero,
    RaisesDroppedOfTheNext,
    RaisesDroppedOfUserZero,
    RaisesEveryUser,
    RaisesTheOtherCount,
    RefusalRaisesUserZero,
    SevenAreEight,
    RefusesAfterFiftyOfAll,
    CutsTheMaskAfterAnothersDecline,
    DeclinesWhatAnotherHasSeen,
    JudgesWithTheNextUser,
    JudgesWithAnothersHolds,
    DeclinesWhileAnotherHoldsFour,
}

/// Those that look at the wrong counts for 28, which no list is long enough to show.
const OF_THE_LIMIT: [Fault; 7] = [
    Fault::LooksAtUserZero,
    Fault::LooksAtTheNextUser,
    Fault::LooksAtEveryUser,
    Fault::LooksAtTheSumOverAll,
    Fault::LooksAtDeclinedOfAll,
    Fault::LooksAtDeclinedOfUserZero,
    Fault::LooksAtDroppedOfAll,
];

/// Those that go against what is stated of every list: found whatever the other engine says.
pub const AGAINST_LISTS: [Fault; 11] = [
    Fault::KeepsCountsModulo16,
    Fault::RaisesAdmittedOfTheNext,
    Fault::RaisesAdmittedOfUserZero,
    Fault::RaisesDeclinedOfTheNext,
    Fault::RaisesDeclinedOfUserZero,
    Fault::RaisesDroppedOfTheNext,
    Fault::RaisesDroppedOfUserZero,
    Fault::RaisesEveryUser,
    Fault::RaisesTheOtherCount,
    Fault::RefusalRaisesUserZero,
    Fault::SevenAreEight,
];

/// Those that go against nothing that is stated of one list, but against what is stated of two.
pub const AGAINST_ALIKE: [Fault; 6] = [
    Fault::RefusesAfterFiftyOfAll,
    Fault::CutsTheMaskAfterAnothersDecline,
    Fault::DeclinesWhatAnotherHasSeen,
    Fault::JudgesWithTheNextUser,
    Fault::JudgesWithAnothersHolds,
    Fault::DeclinesWhileAnotherHoldsFour,
];

pub fn faults() -> impl Iterator<Item = Fault> {
    let faults = OF_THE_LIMIT.into_iter();
    faults.chain(AGAINST_LISTS).chain(AGAINST_ALIKE)
}

impl Steps for Fault {
    fn is_full(&self, at: &Asking) -> bool {
        let tally = &at.records.tally;
        let full = |user: usize| {
            let held = at.records.holds.of_user(user as u32).count();
            counts(tally, user).are_full(held)
        };
        let own = at.counts();
        let held = at.own().len() as u64;
        let sums = [&tally.admitted, &tally.declined, &tally.dropped].map(|counts| sum(counts));
        let with = |own: [u32; 2], other: u64| {
            own.map(u64::from).iter().sum::<u64>() + held + other >= 1_000_000
        };
        match self {
            Fault::LooksAtUserZero => full(0),
            Fault::LooksAtTheNextUser => full(next(at.user)),
            Fault::LooksAtEveryUser => (0..USERS).any(full),
            Fault::LooksAtTheSumOverAll => with([0, 0], sums.iter().sum()),
            Fault::LooksAtDeclinedOfAll => with([own.admitted, own.dropped], sums[1]),
            Fault::LooksAtDeclinedOfUserZero => {
                with([own.admitted, own.dropped], tally.declined[0].into())
            }
            Fault::LooksAtDroppedOfAll => with([own.admitted, own.declined], sums[2]),
            Fault::KeepsCountsModulo16 => full(at.user % 16),
            Fault::RefusesAfterFiftyOfAll => full(at.user) || sums.iter().sum::<u64>() >= 50,
            _ => full(at.user),
        }
    }

    fn are_eight(&self, at: &Asking) -> bool {
        let most = match self {
            Fault::SevenAreEight => 1,
            _ => 0,
        };
        at.empty().len() <= most
    }

    fn union(&self, at: &Asking) -> Words {
        let mut all = at.before();
        join(&mut all, &at.plan);
        match self {
            Fault::JudgesWithTheNextUser => {
                join(&mut all, words_of(&at.records.ledger, next(at.user)));
                all
            }
            Fault::JudgesWithAnothersHolds => at.with(all, &at.all()),
            _ => all,
        }
    }

    fn decided(&self, at: &Asking, mask: u32) -> u32 {
        let others = at.all().len() - at.own().len();
        match self {
            // The lowest rule alone.
            Fault::CutsTheMaskAfterAnothersDecline if another_is_declined(at) => {
                mask & mask.wrapping_neg()
            }
            Fault::DeclinesWhatAnotherHasSeen if mask == 0 => u32::from(another_has_seen(at)),
            Fault::DeclinesWhileAnotherHoldsFour if mask == 0 => u32::from(others >= PLACES / 2),
            _ => mask,
        }
    }

    fn number(&self, at: &Asking) -> u32 {
        let user = match self {
            Fault::KeepsCountsModulo16 => at.user % 16,
            _ => at.user,
        };
        counts(&at.records.tally, user).next_number(at.own().len()) as u32
    }

    fn decline(&self, at: &Asking, records: &mut Records) {
        let Tally {
            admitted, declined, ..
        } = &mut records.tally;
        let counts = match self {
            Fault::RaisesTheOtherCount => admitted,
            _ => declined,
        };
        self.raise(counts, at.user, 1);
    }

    fn count(&self, at: &Settling, tally: &mut Tally) {
        let (counts, kind) = match at.commits != (*self == Fault::RaisesTheOtherCount) {
            true => (&mut tally.admitted, 0),
            false => (&mut tally.dropped, 2),
        };
        self.raise(counts, at.user as usize, kind);
    }

    fn refuse_ask(&self, _: &Asking, _: Refusal, records: &mut Records) {
        if *self == Fault::RefusalRaisesUserZero {
            raise(&mut records.tally.admitted[..1]);
        }
    }

    fn refuse_settling(&self, _: &Settling, _: Refusal, records: &mut Records) {
        if *self == Fault::RefusalRaisesUserZero {
            raise(&mut records.tally.dropped[..1]);
        }
    }
}

impl Fault {
    /// Raises the counts that the fault raises: 0 admitted, 1 declined, 2 dropped.
    fn raise(&self, counts: &mut [u32; USERS], user: usize, kind: usize) {
        let next_of = [
            Fault::RaisesAdmittedOfTheNext,
            Fault::RaisesDeclinedOfTheNext,
            Fault::RaisesDroppedOfTheNext,
        ];
        let zero_of = [
            Fault::RaisesAdmittedOfUserZero,
            Fault::RaisesDeclinedOfUserZero,
            Fault::RaisesDroppedOfUserZero,
        ];
        let of = match self {
            _ if next_of[kind] == *self => next(user),
            _ if zero_of[kind] == *self => 0,
            Fault::KeepsCountsModulo16 => user % 16,
            _ => user,
        };
        match self {
            Fault::RaisesEveryUser => raise(counts),
            _ => raise(&mut counts[of..=of]),
        }
    }
}

fn next(user: usize) -> usize {
    (user + 1) % USERS
}

fn sum(counts: &[u32]) -> u64 {
    counts.iter().copied().map(u64::from).sum()
}

fn another_is_declined(at: &Asking) -> bool {
    let mut users = (0..USERS).filter(|user| *user != at.user);
    users.any(|user| at.records.tally.declined[user] > 0)
}

/// Has another user seen an access of the plan?
fn another_has_seen(at: &Asking) -> bool {
    let mut others = (0..USERS).filter(|user| *user != at.user);
    others.any(|user| {
        let mut words = words_of(&at.records.ledger, user).iter().zip(at.plan);
        words.any(|(word, more)| word & more != 0)
    })
}

/// An ask, a commit and a drop of one book.
fn calls(random: &mut Random) -> [Case; 3] {
    let size = case::next_size(random);
    let draft = valid::draft(random, size);
    let book = draft.bytes();
    let mut settle = || Box::new(reserve::settle(random, &draft, &book));
    let [commit, drop] = [settle(), settle()];
    let ask = reserve::ask(random, &draft, &book);
    [ask.into(), Case::Commit(commit), Case::Drop(drop)]
}

/// Both engines have the fault: a call is wrong by its sentences.
pub fn is_found_by_the_sentences(fault: impl Steps + Copy + Debug) {
    let faulty = FaultyEngine(ByStep(fault));
    let engines: [&dyn Engine; 2] = [&faulty, &faulty];
    let mut random = Random::new(6);
    let mut reached = Reached::default();
    let difference = (0..5_000).find_map(|_| {
        let mut calls = calls(&mut random).into_iter();
        calls.find_map(|case| try_case(engines, &case, &mut reached).err())
    });
    let difference = difference.unwrap_or_else(|| panic!("{fault:?} not found"));
    println!("{fault:?} against its sentences, {} cases", reached.cases);
    assert_eq!(difference.sides[0].0, "documents");
    assert_shown_again(engines, &difference);
}

/// The sizes of the books of histories, whose calls are many: most faults show on small books.
const SMALL: [Size; 3] = [Size::Tiny, Size::Tiny, Size::Small];

/// Some show with many users alone.
const SOME_LARGE: [Size; 5] = [Size::Tiny, Size::Tiny, Size::Tiny, Size::Small, Size::Large];

/// What is stated of every list goes against the engines in one of so many histories.
fn by_the_lists(
    engines: [&dyn Engine; 2],
    sizes: &[Size],
    histories: u32,
    reached: &mut Reached,
) -> Option<Box<Difference>> {
    let mut random = Random::new(6);
    (0..histories).find_map(|_| {
        let size = random.one(sizes);
        let history = history::<BySecond>(&mut random, size);
        try_history(engines, &history, reached).err()
    })
}

/// Both engines have the fault, so that they never differ.
pub fn is_found_by_the_lists(fault: impl Steps + Copy + Debug) {
    let faulty = FaultyEngine(ByStep(fault));
    let engines: [&dyn Engine; 2] = [&faulty, &faulty];
    let mut reached = Reached::default();
    let difference = by_the_lists(engines, &SOME_LARGE, 200, &mut reached);
    let difference = difference.unwrap_or_else(|| panic!("{fault:?} not found"));
    let (name, stated, _) = &difference.sides[0];
    println!("{fault:?} against '{stated}', {} cases", reached.cases);
    assert_eq!(*name, "documents");
    assert_shown_again(engines, &difference);
}

/// Both engines have the fault, and no list by itself tells: two that are alike for a user do.
pub fn is_found_by_alike_histories(fault: Fault) {
    let faulty = FaultyEngine(ByStep(fault));
    let engines: [&dyn Engine; 2] = [&faulty, &faulty];
    let mut reached = Reached::default();
    assert!(by_the_lists(engines, &SMALL, 15, &mut reached).is_none());
    let mut random = Random::new(6);
    let difference = (0..200).find_map(|_| {
        let size = random.one(&SMALL);
        let alike = histories::<BySecond>(&mut random, size);
        try_alike(engines, &alike, &mut reached).err()
    });
    let difference = difference.unwrap_or_else(|| panic!("{fault:?} not found"));
    let (_, stated, _) = &difference.sides[0];
    let pairs = reached.holds.alike;
    println!("{fault:?} against '{stated}', after {pairs} pairs");
    assert_eq!(*stated, ALIKE);
    assert_shown_again(engines, &difference);
}
