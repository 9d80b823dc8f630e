//! Faults of Commit and Drop (document 02, N3 and N10).

use crate::asks::that_can_be_had;
use crate::steps::{raise, Settling, Steps, Test};
use against::words::{free, join, mask, Words};
use books::records::{Holds, Records, Tally, PLACES, USERS};
use second::ledger::{words_of, words_of_mut};
use second::{reading, Refusal};

#[derive(Clone, Copy, Debug, PartialEq, Eq)]
pub enum Fault {
    CommitIsNotJoined,
    CommitKeepsTheLastAlone,
    CommitJoinsAllHisHolds,
    CommitJoinsToEveryUser,
    CommitJoinsToUserZero,
    CommitExchangesActions,
    CommitClearsTheNextUser,
    CommitLeavesOutWhatCanNotBeHad,
    CommitTests,
    DropIsJoined,
    DropTakesFromTheWords,
    CommitRaisesNothing,
    CommitRaisesDropped,
    CommitRaisesDeclined,
    DropRaisesNothing,
    DropRaisesAdmitted,
    BothAreRaised,
    CountsWrap,
    CountsAtTheTopRefuse,
    FullCountsRefuse,
    EightRefuse,
    WordsAreNotFreed,
    UserIsNotFreed,
    NumberIsNotFreed,
    DropFreesNothing,
    AllOfHisAreFreed,
    AllAlikeAreFreed,
    HigherPlacesMoveDown,
    LowestOfHisIsMeant,
    HighestOfTwoIsMeant,
    AnybodysNumberIsMeant,
    ZeroIsHeld,
    NumberIsCutTo16Bits,
    NumbersAboveAMillionAreNotHeld,
    NumbersNotBelowTheNextAreNotHeld,
    NumberBeforeTheUser,
    NumberBeforeLength,
    DropTakesAnyLedger,
    RepliesWithTheCount,
    RepliesWithThePlace,
    RefusalCountsAsDropped,
    AnothersCallFreesThePlace,
    RefusalClearsTheUsersWords,
}

/// Those that go against what is stated of every list: found whatever the other engine says.
pub const AGAINST_LISTS: [Fault; 29] = [
    Fault::CommitIsNotJoined,
    Fault::CommitKeepsTheLastAlone,
    Fault::CommitJoinsAllHisHolds,
    Fault::CommitJoinsToEveryUser,
    Fault::CommitJoinsToUserZero,
    Fault::CommitExchangesActions,
    Fault::CommitClearsTheNextUser,
    Fault::DropIsJoined,
    Fault::DropTakesFromTheWords,
    Fault::CommitRaisesNothing,
    Fault::CommitRaisesDropped,
    Fault::CommitRaisesDeclined,
    Fault::DropRaisesNothing,
    Fault::DropRaisesAdmitted,
    Fault::BothAreRaised,
    Fault::EightRefuse,
    Fault::WordsAreNotFreed,
    Fault::UserIsNotFreed,
    Fault::NumberIsNotFreed,
    Fault::DropFreesNothing,
    Fault::AllOfHisAreFreed,
    Fault::HigherPlacesMoveDown,
    Fault::LowestOfHisIsMeant,
    Fault::AnybodysNumberIsMeant,
    Fault::RepliesWithTheCount,
    Fault::RepliesWithThePlace,
    Fault::RefusalCountsAsDropped,
    Fault::AnothersCallFreesThePlace,
    Fault::RefusalClearsTheUsersWords,
];

/// The others: on records of no list, or in refusals.
pub const OTHERS: [Fault; 14] = [
    Fault::CommitLeavesOutWhatCanNotBeHad,
    Fault::CommitTests,
    Fault::CountsWrap,
    Fault::CountsAtTheTopRefuse,
    Fault::FullCountsRefuse,
    Fault::AllAlikeAreFreed,
    Fault::HighestOfTwoIsMeant,
    Fault::ZeroIsHeld,
    Fault::NumberIsCutTo16Bits,
    Fault::NumbersAboveAMillionAreNotHeld,
    Fault::NumbersNotBelowTheNextAreNotHeld,
    Fault::NumberBeforeTheUser,
    Fault::NumberBeforeLength,
    Fault::DropTakesAnyLedger,
];

impl Steps for Fault {
    fn tests_of_settling(&self, at: &Settling) -> Vec<Test> {
        use Test::*;
        match self {
            Fault::NumberBeforeTheUser => vec![Book, Number, User, Length],
            Fault::NumberBeforeLength => vec![User, Number, Length],
            Fault::DropTakesAnyLedger if !at.commits => vec![User, Number],
            Fault::FullCountsRefuse => vec![User, Length, Counts, Number],
            Fault::EightRefuse => vec![User, Length, Eight, Number],
            _ => vec![User, Length, Number],
        }
    }

    fn meant(&self, at: &Settling) -> Option<usize> {
        let Records { tally, holds, .. } = at.records;
        let user = at.user as usize;
        let with = |number: u32| (0..PLACES).find(|&place| holds.numbers[place] == number);
        match self {
            Fault::LowestOfHisIsMeant => at.lowest().and(holds.of_user(at.user).next()),
            Fault::HighestOfTwoIsMeant => at.alike().last().copied(),
            Fault::AnybodysNumberIsMeant => with(at.number).filter(|_| at.number != 0),
            Fault::ZeroIsHeld if at.number == 0 => {
                let his = |place: &usize| holds.users[*place] == at.user;
                with(0).filter(his)
            }
            Fault::NumberIsCutTo16Bits => {
                let cut = |place: &usize| holds.numbers[*place] as u16 == at.number as u16;
                holds.of_user(at.user).find(cut)
            }
            Fault::NumbersAboveAMillionAreNotHeld => at.lowest().filter(|_| at.number <= 1_000_000),
            Fault::NumbersNotBelowTheNextAreNotHeld => {
                let held = holds.of_user(at.user).count() as u64;
                let counts = [tally.admitted[user], tally.dropped[user]].map(u64::from);
                let below = u64::from(at.number) <= counts[0] + counts[1] + held;
                at.lowest().filter(|_| below)
            }
            Fault::CommitTests if at.commits => at.lowest().filter(|&place| {
                let mut words = words_of(&at.records.ledger, user).to_vec();
                join(&mut words, at.words(place));
                let book = reading::read(at.book).expect("it is accepted");
                mask(&book, user, &words) == 0
            }),
            Fault::CountsAtTheTopRefuse => {
                let count = [tally.dropped[user], tally.admitted[user]][usize::from(at.commits)];
                at.lowest().filter(|_| count != u32::MAX)
            }
            _ => at.lowest(),
        }
    }

    fn admit(&self, at: &Settling, place: usize, ledger: &mut [u64]) {
        let user = at.user as usize;
        let words: Words = at.words(place).try_into().expect("a place has 32");
        match self {
            Fault::DropIsJoined if !at.commits => join(words_of_mut(ledger, user), &words),
            Fault::DropTakesFromTheWords if !at.commits => {
                let his = words_of_mut(ledger, user).iter_mut().zip(words);
                his.for_each(|(word, dropped)| *word &= !dropped);
            }
            _ if at.commits => self.commit(at, words, ledger),
            _ => {}
        }
    }

    fn count(&self, at: &Settling, tally: &mut Tally) {
        let Tally {
            admitted,
            declined,
            dropped,
        } = tally;
        let own = at.user as usize..at.user as usize + 1;
        let right = if at.commits {
            &mut *admitted
        } else {
            &mut *dropped
        };
        match (self, at.commits) {
            (Fault::CommitRaisesNothing, true) | (Fault::DropRaisesNothing, false) => {}
            (Fault::CommitRaisesDropped, _) => raise(&mut dropped[own]),
            (Fault::DropRaisesAdmitted, _) => raise(&mut admitted[own]),
            (Fault::CommitRaisesDeclined, true) => raise(&mut declined[own]),
            (Fault::BothAreRaised, _) => {
                raise(&mut admitted[own.clone()]);
                raise(&mut dropped[own]);
            }
            (Fault::CountsWrap, _) => {
                let count = &mut right[own.start];
                *count = count.wrapping_add(1);
            }
            _ => raise(&mut right[own]),
        }
    }

    fn free(&self, at: &Settling, place: usize, holds: &mut Holds) {
        match self {
            Fault::WordsAreNotFreed => (holds.users[place], holds.numbers[place]) = (0, 0),
            Fault::UserIsNotFreed => {
                free(holds, place);
                holds.users[place] = at.user;
            }
            Fault::NumberIsNotFreed => {}
            Fault::DropFreesNothing if !at.commits => {}
            Fault::AllOfHisAreFreed => {
                let own = at.records.holds.of_user(at.user);
                own.for_each(|place| free(holds, place));
            }
            Fault::AllAlikeAreFreed => {
                let alike = at.alike().into_iter();
                alike.for_each(|place| free(holds, place));
            }
            Fault::HigherPlacesMoveDown => {
                holds.users[place..].rotate_left(1);
                holds.numbers[place..].rotate_left(1);
                holds.words[32 * place..].rotate_left(32);
                free(holds, PLACES - 1);
            }
            _ => free(holds, place),
        }
    }

    fn settled(&self, at: &Settling, place: usize) -> u32 {
        match self {
            Fault::RepliesWithTheCount => at.records.tally.admitted[at.user as usize],
            Fault::RepliesWithThePlace => place as u32,
            _ => at.number,
        }
    }

    fn refuse_settling(&self, at: &Settling, refusal: Refusal, records: &mut Records) {
        let user = at.user as usize % USERS;
        let with = |place: &usize| at.records.holds.numbers[*place] == at.number;
        match (self, refusal.number) {
            (Fault::RefusalCountsAsDropped, 32) => raise(&mut records.tally.dropped[user..=user]),
            (Fault::AnothersCallFreesThePlace, 32) => {
                let place = (0..PLACES).find(with);
                place
                    .into_iter()
                    .for_each(|place| free(&mut records.holds, place));
            }
            (Fault::RefusalClearsTheUsersWords, 32) => {
                words_of_mut(&mut records.ledger, user).fill(0);
            }
            _ => {}
        }
    }
}

impl Fault {
    /// What a commit does to the ledger.
    fn commit(&self, at: &Settling, words: Words, ledger: &mut [u64]) {
        let user = at.user as usize;
        match self {
            Fault::CommitIsNotJoined => {}
            Fault::CommitKeepsTheLastAlone => words_of_mut(ledger, user).copy_from_slice(&words),
            Fault::CommitJoinsAllHisHolds => {
                let own = at.records.holds.of_user(at.user);
                own.for_each(|place| join(words_of_mut(ledger, user), at.words(place)));
            }
            Fault::CommitJoinsToEveryUser => {
                (0..USERS).for_each(|any| join(words_of_mut(ledger, any), &words));
            }
            Fault::CommitJoinsToUserZero => join(words_of_mut(ledger, 0), &words),
            Fault::CommitExchangesActions => {
                // Conditions where projections are, and the other way round.
                let mut turned = words;
                turned.rotate_left(16);
                join(words_of_mut(ledger, user), &turned);
            }
            Fault::CommitClearsTheNextUser => {
                join(words_of_mut(ledger, user), &words);
                words_of_mut(ledger, (user + 1) % USERS).fill(0);
            }
            Fault::CommitLeavesOutWhatCanNotBeHad => {
                join(words_of_mut(ledger, user), &that_can_be_had(at.book, words));
            }
            _ => join(words_of_mut(ledger, user), &words),
        }
    }
}
