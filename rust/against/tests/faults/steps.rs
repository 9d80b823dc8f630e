//! Asking, committing and dropping step by step (document 02, N10), over words: a fault gets single steps wrong.

use crate::{Faulty, GOOD};
use against::engine::{held, Reply};
use against::words::{flows, free, join, mask, seen_and_held, Words};
use against::Engine;
use books::records::{Holds, Records, Tally, LEDGER, PLACES};
use second::ledger::{words_of, words_of_mut};
use second::refusal::{COUNTS_FULL, EIGHT_HELD, LEDGER_LENGTH, NOT_HELD};
use second::{reading, Counts, Refusal};

/// What a call tests. The book is tested with the user, and both with the plan.
#[derive(Clone, Copy)]
pub enum Test {
    Book,
    User,
    Plan,
    Length,
    Counts,
    Eight,
    Number,
}

/// An ask, with the accesses of its plan.
pub struct Asking<'a> {
    pub book: &'a [u8],
    pub user: usize,
    pub plan: Words,
    pub records: &'a Records,
}

impl Asking<'_> {
    /// The mask of the rules that the user breaks.
    pub fn mask(&self, words: &[u64]) -> u32 {
        let book = reading::read(self.book).expect("it is accepted");
        mask(&book, self.user, words)
    }

    pub fn counts(&self) -> Counts {
        against::records::counts(&self.records.tally, self.user)
    }

    /// The places that the user holds.
    pub fn own(&self) -> Vec<usize> {
        self.records.holds.of_user(self.user as u32).collect()
    }

    /// The places that are held, whoever holds them.
    pub fn all(&self) -> Vec<usize> {
        self.records.holds.held().collect()
    }

    /// The places that are empty.
    pub fn empty(&self) -> Vec<usize> {
        let numbers = self.records.holds.numbers;
        (0..PLACES).filter(|&place| numbers[place] == 0).collect()
    }

    /// The user's words.
    pub fn seen(&self) -> Words {
        let words = words_of(&self.records.ledger, self.user);
        words.try_into().expect("a user has 32")
    }

    /// Words joined with those of some places.
    pub fn with(&self, words: Words, places: &[usize]) -> Words {
        let mut all = words;
        for &place in places {
            join(&mut all, self.records.holds.words_of(place));
        }
        all
    }

    /// The user's words joined with what he holds, but not with the plan.
    pub fn before(&self) -> Words {
        seen_and_held(self.records, self.user)
    }
}

/// A commit or a drop.
pub struct Settling<'a> {
    pub book: &'a [u8],
    pub user: u32,
    pub number: u32,
    pub commits: bool,
    pub records: &'a Records,
}

impl Settling<'_> {
    /// The lowest place with the user and the number.
    pub fn lowest(&self) -> Option<usize> {
        self.alike().first().copied()
    }

    /// Every place with the user and the number.
    pub fn alike(&self) -> Vec<usize> {
        let holds = &self.records.holds;
        let own = holds.of_user(self.user);
        own.filter(|&place| holds.numbers[place] == self.number)
            .collect()
    }

    /// The words of a place.
    pub fn words(&self, place: usize) -> &[u64] {
        self.records.holds.words_of(place)
    }
}

/// The steps; those that a fault does not get wrong are right.
pub trait Steps {
    /// The user that a call takes.
    fn user(&self, user: u32) -> u32 {
        user
    }

    /// What an ask tests, in its order.
    fn tests_of_ask(&self) -> Vec<Test> {
        vec![Test::Plan, Test::Length, Test::Counts, Test::Eight]
    }

    /// What a commit or a drop tests, in its order.
    fn tests_of_settling(&self, _: &Settling) -> Vec<Test> {
        vec![Test::User, Test::Length, Test::Number]
    }

    fn is_whole(&self, length: usize) -> bool {
        length == LEDGER
    }

    /// 28: are the plans of the user too many?
    fn is_full(&self, at: &Asking) -> bool {
        at.counts().are_full(at.own().len())
    }

    /// 31: are eight held?
    fn are_eight(&self, at: &Asking) -> bool {
        at.empty().is_empty()
    }

    /// What is judged.
    fn union(&self, at: &Asking) -> Words {
        let mut all = at.before();
        join(&mut all, &at.plan);
        all
    }

    /// The mask by which it is decided, from that of the union.
    fn decided(&self, _: &Asking, mask: u32) -> u32 {
        mask
    }

    /// The mask that is replied, from the one by which a plan is declined.
    fn replied(&self, _: &Asking, mask: u32) -> u32 {
        mask
    }

    fn place(&self, at: &Asking) -> usize {
        at.empty()[0]
    }

    fn number(&self, at: &Asking) -> u32 {
        at.counts().next_number(at.own().len()) as u32
    }

    /// What a place keeps of a plan.
    fn kept(&self, at: &Asking, _place: usize) -> Words {
        at.plan
    }

    /// The reply to an ask as it is packed, from the right one.
    fn packed(&self, reply: Reply) -> Reply {
        reply
    }

    /// What else a hold changes.
    fn hold(&self, _: &Asking, _place: usize, _: &mut Records) {}

    /// What a declined plan changes.
    fn decline(&self, at: &Asking, records: &mut Records) {
        records.tally.declined[at.user] += 1;
    }

    /// The place that a commit or a drop means.
    fn meant(&self, at: &Settling) -> Option<usize> {
        at.lowest()
    }

    /// What a commit or a drop does to the ledger.
    fn admit(&self, at: &Settling, place: usize, ledger: &mut [u64]) {
        if at.commits {
            join(words_of_mut(ledger, at.user as usize), at.words(place));
        }
    }

    /// What a commit or a drop counts.
    fn count(&self, at: &Settling, tally: &mut Tally) {
        let counts = match at.commits {
            true => &mut tally.admitted,
            false => &mut tally.dropped,
        };
        raise(&mut counts[at.user as usize..][..1]);
    }

    fn free(&self, _: &Settling, place: usize, holds: &mut Holds) {
        free(holds, place);
    }

    /// What a commit or a drop replies.
    fn settled(&self, at: &Settling, _place: usize) -> u32 {
        at.number
    }

    /// What a refused ask changes.
    fn refuse_ask(&self, _: &Asking, _: Refusal, _: &mut Records) {}

    /// What a refused commit or drop changes.
    fn refuse_settling(&self, _: &Settling, _: Refusal, _: &mut Records) {}
}

/// One more for each; a count at its top stays there.
pub fn raise(counts: &mut [u32]) {
    let each = counts.iter_mut();
    each.for_each(|count| *count = count.saturating_add(1));
}

/// The engine of some steps.
#[derive(Clone, Copy, Debug)]
pub struct ByStep<S>(pub S);

/// All steps are right.
#[derive(Clone, Copy, Debug)]
pub struct Right;

impl Steps for Right {}

impl<S: Steps> Faulty for ByStep<S> {
    fn ask(
        &self,
        book: &[u8],
        user: u32,
        plan: &[u8],
        records: &mut Records,
    ) -> Result<Reply, Refusal> {
        let before = records.clone();
        let at = Asking {
            book,
            user: self.0.user(user) as usize,
            plan: flows(&GOOD, book, plan),
            records: &before,
        };
        for test in self.0.tests_of_ask() {
            let tested = self.test_ask(test, &at, plan);
            tested.inspect_err(|refusal| self.0.refuse_ask(&at, *refusal, records))?;
        }
        let mask = self.0.decided(&at, at.mask(&self.0.union(&at)));
        if mask != 0 {
            self.0.decline(&at, records);
            let mask = self.0.replied(&at, mask);
            return Ok(self.0.packed(mask.into()));
        }
        let (place, number) = (self.0.place(&at), self.0.number(&at));
        (records.holds.users[place], records.holds.numbers[place]) = (at.user as u32, number);
        let kept = self.0.kept(&at, place);
        records.holds.words_of_mut(place).copy_from_slice(&kept);
        self.0.hold(&at, place, records);
        Ok(self.0.packed(held(number)))
    }

    fn commit(
        &self,
        book: &[u8],
        user: u32,
        number: u32,
        records: &mut Records,
    ) -> Result<u32, Refusal> {
        self.settle(book, user, number, true, records)
    }

    fn drop_hold(
        &self,
        book: &[u8],
        user: u32,
        number: u32,
        records: &mut Records,
    ) -> Result<u32, Refusal> {
        self.settle(book, user, number, false, records)
    }
}

impl<S: Steps> ByStep<S> {
    fn test_ask(&self, test: Test, at: &Asking, plan: &[u8]) -> Result<(), Refusal> {
        let (user, length) = (at.user as u32, at.records.ledger.len());
        match test {
            Test::Book => GOOD.check(at.book).map(|_| ()),
            Test::User => GOOD.judge(at.book, user, &[]).map(|_| ()),
            Test::Plan => GOOD.judge(at.book, user, plan).map(|_| ()),
            Test::Length => unless(!self.0.is_whole(length), LEDGER_LENGTH),
            Test::Counts => unless(self.0.is_full(at), COUNTS_FULL),
            Test::Eight => unless(self.0.are_eight(at), EIGHT_HELD),
            Test::Number => Ok(()),
        }
    }

    fn settle(
        &self,
        book: &[u8],
        user: u32,
        number: u32,
        commits: bool,
        records: &mut Records,
    ) -> Result<u32, Refusal> {
        let before = records.clone();
        let at = Settling {
            book,
            user: self.0.user(user),
            number,
            commits,
            records: &before,
        };
        for test in self.0.tests_of_settling(&at) {
            let tested = self.test_settling(test, &at);
            tested.inspect_err(|refusal| self.0.refuse_settling(&at, *refusal, records))?;
        }
        let place = self.0.meant(&at).unwrap_or(0);
        self.0.admit(&at, place, &mut records.ledger);
        self.0.count(&at, &mut records.tally);
        self.0.free(&at, place, &mut records.holds);
        Ok(self.0.settled(&at, place))
    }

    fn test_settling(&self, test: Test, at: &Settling) -> Result<(), Refusal> {
        let length = at.records.ledger.len();
        match test {
            Test::Book => GOOD.check(at.book).map(|_| ()),
            Test::User => GOOD.judge(at.book, at.user, &[]).map(|_| ()),
            Test::Length => unless(!self.0.is_whole(length), LEDGER_LENGTH),
            Test::Number => unless(self.0.meant(at).is_none(), NOT_HELD),
            Test::Eight => unless(at.records.holds.held().count() == PLACES, EIGHT_HELD),
            Test::Counts => {
                let own = at.records.holds.of_user(at.user).count();
                let counts = against::records::counts(&at.records.tally, at.user as usize);
                unless(counts.are_full(own), COUNTS_FULL)
            }
            Test::Plan => Ok(()),
        }
    }
}

fn unless(refused: bool, number: u32) -> Result<(), Refusal> {
    match refused {
        true => Err(Refusal::of(number)),
        false => Ok(()),
    }
}
