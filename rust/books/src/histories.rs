//! Lists of calls from fresh records (document 02, N3, N8 and N10): asks, and between them commits and drops of what
//! is held.

use crate::case::Case;
use crate::draft::{leaves, Draft};
use crate::numbers;
use crate::plans;
use crate::random::Random;
use crate::records::{Records, PLACES, USERS};
use crate::reserve::{Ask, Settle};
use crate::valid::{self, Size};

/// A call of a list.
#[derive(Clone, Debug, PartialEq, Eq)]
pub struct Call {
    /// The user's number.
    pub user: u32,
    /// What is called for.
    pub act: Act,
}

/// What a call is for.
#[derive(Clone, Debug, PartialEq, Eq)]
pub enum Act {
    /// Asking, with the plan.
    Ask(Vec<u8>),
    /// Committing, with the number.
    Commit(u32),
    /// Dropping, with the number.
    Drop(u32),
}

impl Call {
    /// A user asks.
    pub fn ask(user: u32, plan: Vec<u8>) -> Call {
        let act = Act::Ask(plan);
        Call { user, act }
    }

    /// Is it an ask?
    pub fn asks(&self) -> bool {
        matches!(self.act, Act::Ask(_))
    }

    /// The call with a book and records.
    pub fn with(&self, book: &[u8], records: &Records) -> Case {
        let (book, user, records) = (book.to_vec(), self.user, records.clone());
        let settle = |number| {
            Box::new(Settle {
                book: book.clone(),
                user,
                number,
                records: records.clone(),
            })
        };
        match &self.act {
            Act::Commit(number) => Case::Commit(settle(*number)),
            Act::Drop(number) => Case::Drop(settle(*number)),
            Act::Ask(plan) => {
                let plan = plan.clone();
                Ask {
                    book,
                    user,
                    plan,
                    records,
                }
                .into()
            }
        }
    }
}

/// A list of calls with one book, from fresh records.
#[derive(Clone, Debug, PartialEq, Eq)]
pub struct History {
    /// The book.
    pub book: Vec<u8>,
    /// The calls.
    pub calls: Vec<Call>,
}

/// What answers the calls of a list while it is drawn: which numbers can be committed depends on the replies.
pub trait Kept {
    /// Fresh records, with a book.
    fn fresh(book: &[u8]) -> Self;
    /// The number of the hold that is made, committed or dropped; none where the plan is declined or
    /// something is refused.
    fn answer(&mut self, call: &Call) -> Option<u32>;
}

/// A list that is being drawn.
pub(crate) struct Drawn<K> {
    kept: K,
    /// The calls so far.
    pub(crate) calls: Vec<Call>,
    /// For each, whether eight were held before it.
    pub(crate) full: Vec<bool>,
    /// The users and numbers that are held.
    pub(crate) held: Vec<(u32, u32)>,
    /// Those that were committed or dropped.
    pub(crate) settled: Vec<(u32, u32)>,
    /// At most so many commits and drops come between two asks.
    between: usize,
}

impl<K: Kept> Drawn<K> {
    pub(crate) fn fresh(random: &mut Random, book: &[u8]) -> Drawn<K> {
        Drawn {
            kept: K::fresh(book),
            calls: vec![],
            full: vec![],
            held: vec![],
            settled: vec![],
            between: random.below(4),
        }
    }

    /// Are eight held?
    pub(crate) fn is_full(&self) -> bool {
        self.held.len() == PLACES
    }

    /// Adds a call, and hears what is answered.
    pub(crate) fn add(&mut self, call: Call) {
        self.full.push(self.is_full());
        if let Some(number) = self.kept.answer(&call) {
            let hold = (call.user, number);
            match call.act {
                Act::Ask(_) => self.held.push(hold),
                _ => {
                    self.held.retain(|held| *held != hold);
                    self.settled.push(hold);
                }
            }
        }
        self.calls.push(call);
    }

    /// Adds commits and drops by users other than the one, if there is one.
    pub(crate) fn add_settling(&mut self, random: &mut Random, but: Option<u32>) {
        if random.chance(1, 16) {
            self.between = random.below(4);
        }
        for _ in 0..random.below(self.between + 1) {
            let call = self.settling(random, but);
            if Some(call.user) != but {
                self.add(call);
            }
        }
    }

    /// A commit or a drop: mostly of a hold, else the last one again, of what was settled before, or of what is
    /// nobody's or another's.
    fn settling(&self, random: &mut Random, but: Option<u32>) -> Call {
        let others = self.held.iter().copied();
        let others: Vec<_> = others.filter(|(user, _)| Some(*user) != but).collect();
        let hold = match random.below(10) {
            0 => self.settled.last().copied(),
            1 => random.pick(&self.settled),
            2 => random
                .pick(&self.held)
                .map(|(user, _)| (user, strange(random))),
            3 => random
                .pick(&self.held)
                .map(|(_, number)| (random.below(USERS) as u32, number)),
            _ => random.pick(&others),
        };
        let any = (random.below(4) as u32, strange(random));
        settle(random, hold.unwrap_or(any))
    }
}

/// A commit or a drop.
pub(crate) fn settle(random: &mut Random, (user, number): (u32, u32)) -> Call {
    let act = match random.chance(1, 2) {
        true => Act::Commit(number),
        false => Act::Drop(number),
    };
    Call { user, act }
}

/// A number that is hardly ever held.
fn strange(random: &mut Random) -> u32 {
    let any = random.below(300) as u32;
    random.one(&[0, 0, 1, any, 1_000_000, u32::MAX])
}

/// The asks of a list: the user and the plan of each.
pub(crate) type Asks = Vec<(u32, Vec<u8>)>;

/// A history of some hundred calls. All but the asks has a generator of its own, so that the other calls of a
/// seed don't depend on it.
pub fn history<K: Kept>(random: &mut Random, size: Size) -> History {
    let (book, asks) = asks(random, size);
    let mut own = Random::new(random.clone().bits());
    let calls = drawn::<K>(&mut own, &book, asks).calls;
    History { book, calls }
}

/// Asks with commits and drops between them.
pub(crate) fn drawn<K: Kept>(random: &mut Random, book: &[u8], asks: Asks) -> Drawn<K> {
    let mut drawn = Drawn::fresh(random, book);
    for (user, plan) in asks {
        drawn.add(Call::ask(user, plan));
        drawn.add_settling(random, None);
    }
    drawn
}

/// A book, and some hundred asks: few users and few plans in turn, so that most come again, after they were held
/// or declined.
pub(crate) fn asks(random: &mut Random, size: Size) -> (Vec<u8>, Asks) {
    let draft = valid::draft(random, size);
    let users = users(random, &draft);
    let pool: Vec<Vec<u8>> = (0..random.between(2, 30))
        .map(|_| plan(random, &draft))
        .collect();
    let mut asks: Asks = Vec::new();
    for _ in 0..random.between(100, 300) {
        let next = match asks.last() {
            Some(last) if random.chance(1, 8) => last.clone(),
            _ => (random.one(&users), pool[random.below(pool.len())].clone()),
        };
        asks.push(next);
    }
    (draft.bytes(), asks)
}

/// All numbers up to one too many, or a user and up to three numbers more.
fn users(random: &mut Random, draft: &Draft) -> Vec<u32> {
    if random.chance(1, 4) {
        return (0..=draft.users.len() as u32).collect();
    }
    let mut users = vec![u32::from(random.one(&leaves(&draft.users)))];
    for _ in 0..random.below(4) {
        users.push(numbers::user(random, draft));
    }
    users
}

/// Mostly a plan of few accesses, which is held more often.
fn plan(random: &mut Random, draft: &Draft) -> Vec<u8> {
    match random.below(12) {
        0 => plans::damaged(random, draft),
        1 => plans::sound(random, draft),
        _ => plans::few(random, draft),
    }
}

#[cfg(test)]
pub(crate) mod tests {
    use super::*;
    use std::collections::BTreeMap;

    /// Plans whose length is an odd number of rows are declined. Whoever has a number below 32 may ask.
    #[derive(Default)]
    pub(crate) struct ByLength {
        held: Vec<(u32, u32)>,
        last: BTreeMap<u32, u32>,
    }

    impl Kept for ByLength {
        fn fresh(_: &[u8]) -> ByLength {
            ByLength::default()
        }

        fn answer(&mut self, call: &Call) -> Option<u32> {
            match &call.act {
                Act::Ask(plan) => {
                    let asked = self.held.len() < PLACES && call.user < 32 && plan.len() % 8 == 0;
                    let last = self.last.entry(call.user).or_default();
                    *last += u32::from(asked);
                    let number = *last;
                    self.held.extend(asked.then_some((call.user, number)));
                    asked.then_some(number)
                }
                Act::Commit(number) | Act::Drop(number) => {
                    let of = |hold: &(u32, u32)| *hold == (call.user, *number);
                    let place = self.held.iter().position(of)?;
                    Some(self.held.remove(place).1)
                }
            }
        }
    }

    /// All is reached: commits and drops that find a hold and that do not, and asks while eight are held and
    /// while fewer are.
    #[test]
    fn calls_of_histories() {
        let mut random = Random::new(3);
        let mut seen = BTreeMap::new();
        for _ in 0..50 {
            let history = history::<ByLength>(&mut random, Size::Small);
            let mut kept = ByLength::fresh(&history.book);
            for call in &history.calls {
                let full = kept.held.len() == PLACES;
                let answered = kept.answer(call).is_some();
                let kind = match call.act {
                    Act::Ask(_) => (0, full),
                    Act::Commit(_) => (1, answered),
                    Act::Drop(_) => (2, answered),
                };
                *seen.entry(kind).or_insert(0) += 1;
            }
        }
        assert_eq!(seen.len(), 6);
        assert!(seen.values().all(|&n| n > 500), "{seen:?}");
    }

    /// The asks are drawn as they would be without commits and drops, and so are the next calls.
    #[test]
    fn settling_is_drawn_apart() {
        let [mut one, mut two] = [0, 1].map(|_| Random::new(9));
        let (_, asks) = asks(&mut one, Size::Tiny);
        let calls = history::<ByLength>(&mut two, Size::Tiny).calls;
        let asked = calls.into_iter().filter(Call::asks);
        let wanted = asks.into_iter().map(|(user, plan)| Call::ask(user, plan));
        assert_eq!(asked.collect::<Vec<_>>(), wanted.collect::<Vec<_>>());
        assert_eq!(one.bits(), two.bits());
    }
}
