//! Faults of Ask (document 02, N3 and N10).

use crate::steps::{raise, Asking, Settling, Steps, Test};
use against::engine::Reply;
use against::words::{free, join, Words};
use books::records::{Records, Tally, LEDGER, PLACES, USERS};
use second::ledger::{accesses, words_of_mut, write};
use second::{reading, Counts, Refusal};

#[derive(Clone, Copy, Debug, PartialEq, Eq)]
pub enum Fault {
    JudgesThePlanAlone,
    JudgesWithoutThePlan,
    JudgesWithoutWords,
    JudgesWithoutHolds,
    JudgesWithTheLowestHold,
    JudgesWithTheHighestHold,
    JudgesWithEmptyPlaces,
    JudgesConditionsAsProjections,
    JudgesWhatCanBeHadAlone,
    GivesThePlansMask,
    HeldLacksItsBit,
    HeldHasAnotherBit,
    DeclinedHasTheBit,
    KeepsTheUnion,
    KeepsTheWordsToo,
    KeepsTheHoldsToo,
    KeepsWhatWasThere,
    KeepsProjectionsAlone,
    KeepsNoUser,
    TakesTheHighestEmptyPlace,
    TakesThePlaceAfterTheLast,
    TakesCleanPlacesAlone,
    NumberWithoutAdmitted,
    NumberWithoutDropped,
    NumberWithoutHeld,
    NumberWithDeclined,
    NumberOfAllHeld,
    NumberFromZero,
    NumberAboveTheHeld,
    NumberOfThePlace,
    EightBeforeCounts,
    EightBeforeLength,
    EightBeforeThePlan,
    EightForPlansThatPass,
    EightOfHisOwn,
    EightOfUsersAlone,
    EightByTheHighestPlace,
    EightIsNotTested,
    SumWraps,
    SumWithoutAdmitted,
    SumWithoutDeclined,
    SumWithoutDropped,
    SumWithoutHeld,
    SumOfAllHeld,
    NoSum,
    LimitIsOneHigher,
    TestsCountsAfterJudging,
    CountsBeforeLength,
    LengthBeforeThePlan,
    TakesALongerLedger,
    CutsUserToAByte,
    HoldCountsAsAdmitted,
    HoldJoinsTheLedger,
    DeclinedJoinsTheLedger,
    DeclinedTakesAPlace,
    DeclinedIsNotRaised,
    DeclinedCountsTwice,
    DeclinedCountsAsDropped,
    RefusalCountsAsDeclined,
    RefusalClearsTheTally,
    RefusalClearsTheHolds,
    EightFreesTheLowest,
}

/// Those that go against what is stated of every list: found whatever the other engine says.
pub const AGAINST_LISTS: [Fault; 38] = [
    Fault::JudgesThePlanAlone,
    Fault::JudgesWithoutThePlan,
    Fault::JudgesWithoutWords,
    Fault::JudgesWithoutHolds,
    Fault::JudgesWithTheLowestHold,
    Fault::JudgesWithTheHighestHold,
    Fault::HeldLacksItsBit,
    Fault::HeldHasAnotherBit,
    Fault::DeclinedHasTheBit,
    Fault::KeepsTheUnion,
    Fault::KeepsTheWordsToo,
    Fault::KeepsTheHoldsToo,
    Fault::KeepsProjectionsAlone,
    Fault::KeepsNoUser,
    Fault::TakesTheHighestEmptyPlace,
    Fault::TakesThePlaceAfterTheLast,
    Fault::NumberWithoutAdmitted,
    Fault::NumberWithoutDropped,
    Fault::NumberWithoutHeld,
    Fault::NumberWithDeclined,
    Fault::NumberOfAllHeld,
    Fault::NumberFromZero,
    Fault::NumberOfThePlace,
    Fault::EightForPlansThatPass,
    Fault::EightOfHisOwn,
    Fault::EightByTheHighestPlace,
    Fault::EightIsNotTested,
    Fault::HoldCountsAsAdmitted,
    Fault::HoldJoinsTheLedger,
    Fault::DeclinedJoinsTheLedger,
    Fault::DeclinedTakesAPlace,
    Fault::DeclinedIsNotRaised,
    Fault::DeclinedCountsTwice,
    Fault::DeclinedCountsAsDropped,
    Fault::RefusalCountsAsDeclined,
    Fault::RefusalClearsTheTally,
    Fault::RefusalClearsTheHolds,
    Fault::EightFreesTheLowest,
];

/// The others: on records of no list, in refusals, or in the mask of a declined plan.
pub const OTHERS: [Fault; 23] = [
    Fault::JudgesWithEmptyPlaces,
    Fault::JudgesConditionsAsProjections,
    Fault::JudgesWhatCanBeHadAlone,
    Fault::GivesThePlansMask,
    Fault::KeepsWhatWasThere,
    Fault::TakesCleanPlacesAlone,
    Fault::NumberAboveTheHeld,
    Fault::EightBeforeCounts,
    Fault::EightBeforeLength,
    Fault::EightBeforeThePlan,
    Fault::EightOfUsersAlone,
    Fault::SumWraps,
    Fault::SumWithoutAdmitted,
    Fault::SumWithoutDeclined,
    Fault::SumWithoutDropped,
    Fault::SumWithoutHeld,
    Fault::SumOfAllHeld,
    Fault::NoSum,
    Fault::LimitIsOneHigher,
    Fault::TestsCountsAfterJudging,
    Fault::CountsBeforeLength,
    Fault::TakesALongerLedger,
    Fault::CutsUserToAByte,
];

/// The one in a refusal before 27 alone, which the sentences of Ask leave to Judge's.
pub const BEFORE: [Fault; 1] = [Fault::LengthBeforeThePlan];

impl Steps for Fault {
    fn user(&self, user: u32) -> u32 {
        match self {
            Fault::CutsUserToAByte => user % 256,
            _ => user,
        }
    }

    fn tests_of_ask(&self) -> Vec<Test> {
        use Test::*;
        match self {
            Fault::EightBeforeCounts => vec![Plan, Length, Eight, Counts],
            Fault::EightBeforeLength => vec![Plan, Eight, Length, Counts],
            Fault::EightBeforeThePlan => vec![User, Eight, Plan, Length, Counts],
            Fault::CountsBeforeLength => vec![Plan, Counts, Length, Eight],
            Fault::LengthBeforeThePlan => vec![User, Length, Plan, Counts, Eight],
            _ => vec![Plan, Length, Counts, Eight],
        }
    }

    fn is_whole(&self, length: usize) -> bool {
        length == LEDGER || length > LEDGER && *self == Fault::TakesALongerLedger
    }

    fn is_full(&self, at: &Asking) -> bool {
        let counts = at.counts();
        let all = [counts.admitted, counts.declined, counts.dropped];
        let [admitted, declined, dropped] = all.map(u64::from);
        let held = at.own().len();
        let sum = admitted + declined + dropped + held as u64;
        let but = |out: u64| sum - out >= 1_000_000;
        match self {
            Fault::SumWraps => sum as u32 >= 1_000_000,
            Fault::SumWithoutAdmitted => but(admitted),
            Fault::SumWithoutDeclined => but(declined),
            Fault::SumWithoutDropped => but(dropped),
            Fault::SumWithoutHeld => but(held as u64),
            Fault::SumOfAllHeld => counts.are_full(at.all().len()),
            Fault::NoSum => all.into_iter().any(|count| count >= 1_000_000),
            Fault::LimitIsOneHigher => sum > 1_000_000,
            Fault::TestsCountsAfterJudging => but(0) && at.mask(&self.union(at)) == 0,
            _ => but(0),
        }
    }

    fn are_eight(&self, at: &Asking) -> bool {
        let all = at.empty().is_empty();
        let users = at.records.holds.users;
        match self {
            Fault::EightForPlansThatPass => all && at.mask(&self.union(at)) == 0,
            Fault::EightOfHisOwn => at.own().len() == PLACES,
            Fault::EightOfUsersAlone => all && users.iter().all(|&user| user < USERS as u32),
            Fault::EightByTheHighestPlace => at.records.holds.numbers[PLACES - 1] != 0,
            Fault::EightIsNotTested => false,
            Fault::TakesCleanPlacesAlone => clean(at).is_empty(),
            _ => all,
        }
    }

    fn union(&self, at: &Asking) -> Words {
        let own = at.own();
        let mut all = match self {
            Fault::JudgesThePlanAlone => [0; 32],
            Fault::JudgesWithoutWords => at.with([0; 32], &own),
            Fault::JudgesWithoutHolds => at.seen(),
            Fault::JudgesWithTheLowestHold => at.with(at.seen(), &own[..own.len().min(1)]),
            Fault::JudgesWithTheHighestHold => {
                at.with(at.seen(), &own[own.len().saturating_sub(1)..])
            }
            Fault::JudgesWithEmptyPlaces => {
                let user = |place: &usize| at.records.holds.users[*place] == at.user as u32;
                let places: Vec<usize> = (0..PLACES).filter(user).collect();
                at.with(at.seen(), &places)
            }
            Fault::JudgesConditionsAsProjections => as_projections(at.before()),
            Fault::JudgesWhatCanBeHadAlone => that_can_be_had(at.book, at.before()),
            _ => at.before(),
        };
        if *self != Fault::JudgesWithoutThePlan {
            join(&mut all, &at.plan);
        }
        all
    }

    fn replied(&self, at: &Asking, mask: u32) -> u32 {
        match self {
            Fault::GivesThePlansMask => at.mask(&at.plan).max(1),
            _ => mask,
        }
    }

    fn packed(&self, reply: Reply) -> Reply {
        let bit = 1 << 32;
        match (self, reply >= bit) {
            (Fault::HeldLacksItsBit, true) => reply - bit,
            (Fault::HeldHasAnotherBit, true) => reply + bit,
            (Fault::DeclinedHasTheBit, false) => reply + bit,
            _ => reply,
        }
    }

    fn place(&self, at: &Asking) -> usize {
        let empty = at.empty();
        let highest = PLACES - 1;
        match self {
            Fault::TakesTheHighestEmptyPlace => *empty.last().unwrap_or(&highest),
            Fault::TakesThePlaceAfterTheLast => match at.all().last() {
                Some(&last) if last < highest => last + 1,
                _ => empty[0],
            },
            Fault::TakesCleanPlacesAlone => clean(at)[0],
            _ => *empty.first().unwrap_or(&highest),
        }
    }

    fn number(&self, at: &Asking) -> u32 {
        let Counts {
            admitted,
            declined,
            dropped,
        } = at.counts();
        let own = at.own();
        let held = own.len() as u32;
        let numbers = own.iter().map(|&place| at.records.holds.numbers[place]);
        match self {
            Fault::NumberWithoutAdmitted => 1 + dropped + held,
            Fault::NumberWithoutDropped => 1 + admitted + held,
            Fault::NumberWithoutHeld => 1 + admitted + dropped,
            Fault::NumberWithDeclined => 1 + admitted + dropped + held + declined,
            Fault::NumberOfAllHeld => 1 + admitted + dropped + at.all().len() as u32,
            Fault::NumberFromZero => admitted + dropped + held,
            Fault::NumberAboveTheHeld => {
                let above = numbers.max().unwrap_or(0).saturating_add(1);
                above.max(1 + admitted + dropped + held)
            }
            Fault::NumberOfThePlace => 1 + self.place(at) as u32,
            _ => at.counts().next_number(own.len()) as u32,
        }
    }

    fn kept(&self, at: &Asking, place: usize) -> Words {
        let mut kept = at.plan;
        match self {
            Fault::KeepsTheUnion => join(&mut kept, &at.before()),
            Fault::KeepsTheWordsToo => join(&mut kept, &at.seen()),
            Fault::KeepsTheHoldsToo => kept = at.with(kept, &at.own()),
            Fault::KeepsWhatWasThere => kept = at.with(kept, &[place]),
            Fault::KeepsProjectionsAlone => kept[16..].fill(0),
            _ => {}
        }
        kept
    }

    fn hold(&self, at: &Asking, place: usize, records: &mut Records) {
        match self {
            Fault::KeepsNoUser => records.holds.users[place] = at.records.holds.users[place],
            Fault::HoldCountsAsAdmitted => records.tally.admitted[at.user] += 1,
            Fault::HoldJoinsTheLedger => {
                join(words_of_mut(&mut records.ledger, at.user), &at.plan);
            }
            _ => {}
        }
    }

    fn decline(&self, at: &Asking, records: &mut Records) {
        let counts = match self {
            Fault::DeclinedCountsAsDropped => &mut records.tally.dropped,
            _ => &mut records.tally.declined,
        };
        match self {
            Fault::DeclinedIsNotRaised => {}
            Fault::DeclinedCountsTwice => counts[at.user] += 2,
            _ => raise(&mut counts[at.user..=at.user]),
        }
        if *self == Fault::DeclinedJoinsTheLedger {
            join(words_of_mut(&mut records.ledger, at.user), &at.plan);
        }
        if *self == Fault::DeclinedTakesAPlace {
            let place = self.place(at);
            let number = self.number(at);
            (records.holds.users[place], records.holds.numbers[place]) = (at.user as u32, number);
        }
    }

    fn refuse_ask(&self, at: &Asking, refusal: Refusal, records: &mut Records) {
        match (self, refusal.number) {
            (Fault::RefusalCountsAsDeclined, _) => {
                let user = at.user % USERS;
                raise(&mut records.tally.declined[user..=user]);
            }
            (Fault::RefusalClearsTheTally, _) => records.tally = Tally::fresh(),
            (Fault::RefusalClearsTheHolds, _) => {
                (0..PLACES).for_each(|place| free(&mut records.holds, place));
            }
            (Fault::EightFreesTheLowest, 31) => free(&mut records.holds, 0),
            _ => {}
        }
    }

    fn refuse_settling(&self, at: &Settling, _: Refusal, records: &mut Records) {
        if *self == Fault::RefusalCountsAsDeclined {
            let user = at.user as usize % USERS;
            raise(&mut records.tally.declined[user..=user]);
        }
    }
}

/// The places that are all zero.
fn clean(at: &Asking) -> Vec<usize> {
    let holds = &at.records.holds;
    let mut empty = at.empty();
    empty.retain(|&place| holds.users[place] == 0 && holds.words_of(place) == [0; 32]);
    empty
}

/// Every access as a projection.
fn as_projections(words: Words) -> Words {
    let mut changed = words;
    let (projections, conditions) = changed.split_at_mut(16);
    for (projection, condition) in projections.iter_mut().zip(conditions) {
        *projection |= std::mem::take(condition);
    }
    changed
}

/// What can be had with the book.
pub fn that_can_be_had(book: &[u8], words: Words) -> Words {
    let book = reading::read(book).expect("it is accepted");
    let mut changed = words;
    write(&(&accesses(&words) & &book.obtainable()), &mut changed);
    changed
}
