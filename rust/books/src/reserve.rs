//! Asking, committing and dropping (document 02, N10): what each call is given, with any records.

use crate::draft::Draft;
use crate::numbers;
use crate::plans;
use crate::random::Random;
use crate::records::{self, Records, USERS};

/// What Ask is given.
#[derive(Clone, Debug, PartialEq, Eq)]
pub struct Ask {
    /// The book.
    pub book: Vec<u8>,
    /// The user's number.
    pub user: u32,
    /// The plan.
    pub plan: Vec<u8>,
    /// The records as they are before.
    pub records: Records,
}

/// What Commit and Drop are given.
#[derive(Clone, Debug, PartialEq, Eq)]
pub struct Settle {
    /// The book.
    pub book: Vec<u8>,
    /// The user's number.
    pub user: u32,
    /// The number of the hold.
    pub number: u32,
    /// The records as they are before.
    pub records: Records,
}

/// An ask of any user and plan with any records. Those of the hold record and the dropped plans have a
/// generator of their own, so that the other calls of a seed don't depend on them.
pub fn ask(random: &mut Random, draft: &Draft, book: &[u8]) -> Ask {
    let ledger = records::ledger(random, draft);
    let own = records::counts(random);
    let user = numbers::user(random, draft);
    let plan = plans::any(random, draft);
    let mut more = Random::new(random.clone().bits());
    let records = with_ledger(&mut more, draft, user, own, ledger);
    let book = book.to_vec();
    Ask {
        book,
        user,
        plan,
        records,
    }
}

/// A commit or a drop of any user and number with any records.
pub fn settle(random: &mut Random, draft: &Draft, book: &[u8]) -> Settle {
    let user = numbers::user(random, draft);
    let own = match random.below(6) {
        0 => random.one(&[[u32::MAX, 0], [u32::MAX, u32::MAX]]),
        _ => records::counts(random),
    };
    let ledger = records::ledger(random, draft);
    let records = with_ledger(random, draft, user, own, ledger);
    let number = number(random, &records, user);
    let book = book.to_vec();
    Settle {
        book,
        user,
        number,
        records,
    }
}

/// A tally and a hold record beside a ledger, for a user with these plans admitted and declined.
fn with_ledger(
    random: &mut Random,
    draft: &Draft,
    user: u32,
    own: [u32; 2],
    ledger: Vec<u64>,
) -> Records {
    let mut tally = records::tally(random, user, own);
    let next = 1 + u64::from(own[0]) + random.below(9) as u64;
    let holds = records::holds(random, draft, user, next);
    let held = holds.of_user(user).count();
    records::add_dropped(random, &mut tally, user, held);
    Records {
        ledger,
        tally,
        holds,
    }
}

/// Mostly a number that the user holds, else that of another place, or one that is not there.
fn number(random: &mut Random, records: &Records, user: u32) -> u32 {
    let holds = &records.holds;
    let own: Vec<usize> = holds.of_user(user).collect();
    let any: Vec<usize> = holds.held().collect();
    let place = match random.below(8) {
        0 => None,
        1 | 2 => random.pick(&any),
        _ => random.pick(&own),
    };
    let user = user as usize % USERS;
    let next = records.tally.admitted[user].wrapping_add(records.tally.dropped[user]);
    let another = random.one(&[0, 0, 1, next, next.wrapping_add(1), 256, u32::MAX]);
    place.map_or(another, |place| holds.numbers[place])
}

#[cfg(test)]
mod tests {
    use super::*;
    use crate::records::{Holds, PLACES};
    use crate::valid::{self, Size};

    const FULL: u64 = 1_000_000;

    fn asks() -> impl Iterator<Item = Ask> {
        let mut random = Random::new(5);
        (0..1_000).map(move |_| {
            let draft = valid::draft(&mut random, Size::Middle);
            ask(&mut random, &draft, &[])
        })
    }

    fn settles() -> impl Iterator<Item = Settle> {
        let mut random = Random::new(6);
        (0..1_000).map(move |_| {
            let draft = valid::draft(&mut random, Size::Middle);
            settle(&mut random, &draft, &[])
        })
    }

    /// A user's plans but for the held ones.
    fn sum(records: &Records, user: usize) -> u64 {
        let tally = &records.tally;
        let counts = [&tally.admitted, &tally.declined, &tally.dropped];
        counts.map(|counts| u64::from(counts[user])).iter().sum()
    }

    /// All kinds of counts stand beside a user's own.
    #[test]
    fn counts_of_others() {
        let mut seen = [0; 3];
        for given in asks() {
            let others = (0..USERS).filter(|user| *user != given.user as usize);
            for user in others {
                let tally = &given.records.tally;
                let pair = [tally.admitted[user], tally.declined[user]];
                let sum: u64 = pair.map(u64::from).iter().sum();
                seen[0] += u32::from(sum == 0);
                seen[1] += u32::from((1..FULL).contains(&sum));
                seen[2] += u32::from(sum >= FULL);
            }
        }
        assert!(seen.iter().all(|&n| n > 1_000), "{seen:?}");
    }

    /// Sums that are full, that are not, and that the held plans fill.
    #[test]
    fn sums_about_the_limit() {
        let mut seen = [0; 5];
        for given in asks() {
            let sum = sum(&given.records, given.user as usize % USERS);
            let held = given.records.holds.of_user(given.user).count() as u64;
            seen[0] += u32::from(sum + held < FULL);
            seen[1] += u32::from(sum + held >= FULL);
            seen[2] += u32::from(sum < FULL && sum + held >= FULL);
            seen[3] += u32::from(sum + held == FULL - 1);
            seen[4] += u32::from(sum + held >= 1 << 32 && ((sum + held) as u32) < 1_000);
        }
        assert!(seen.iter().all(|&n| n >= 10), "{seen:?}");
    }

    /// Does a hold record have two places with one user and one number?
    fn has_two_alike(holds: &Holds) -> bool {
        let of = |place: usize| (holds.users[place], holds.numbers[place]);
        let held: Vec<usize> = holds.held().collect();
        let twice = |place: &usize| {
            held.iter()
                .filter(|other| of(**other) == of(*place))
                .count()
                > 1
        };
        held.iter().any(twice)
    }

    #[test]
    fn kinds_of_hold_records() {
        let mut seen = [0; 7];
        for given in asks() {
            let holds = &given.records.holds;
            let held: Vec<usize> = holds.held().collect();
            let nobody = |place: &usize| holds.users[*place] >= USERS as u32;
            let empty = (0..PLACES).filter(|place| holds.numbers[*place] == 0);
            let mut garbage = empty.filter(|place| holds.words_of(*place) != [0; 32]);
            seen[0] += u32::from(*holds == Holds::fresh());
            seen[1] += u32::from(held.len() == PLACES);
            seen[2] += u32::from(held.len() == PLACES - 1);
            seen[3] += u32::from(held.len() == PLACES && held.iter().all(nobody));
            seen[4] += u32::from(garbage.any(|place| holds.users[place] == given.user));
            seen[5] += u32::from(has_two_alike(holds));
            seen[6] += u32::from(holds.numbers.iter().any(|&number| number > 1_000_000));
        }
        assert!(seen.iter().all(|&n| n >= 10), "{seen:?}");
    }

    /// Numbers that the user holds, that another holds and nobody else, 0, and counts at the top.
    #[test]
    fn numbers_of_holds() {
        let mut seen = [0; 5];
        for given in settles() {
            let holds = &given.records.holds;
            let has = |place: &usize| holds.numbers[*place] == given.number;
            let own = holds.of_user(given.user).any(|place| has(&place));
            let user = given.user as usize % USERS;
            seen[0] += u32::from(own);
            seen[1] += u32::from(!own && holds.held().any(|place| has(&place)));
            seen[2] += u32::from(given.number == 0);
            seen[3] += u32::from(own && given.records.tally.admitted[user] == u32::MAX);
            seen[4] += u32::from(own && given.records.tally.dropped[user] == u32::MAX);
        }
        assert!(seen.iter().all(|&n| n >= 10), "{seen:?}");
    }

    /// The hold record and the dropped plans are drawn apart.
    #[test]
    fn asks_are_drawn_apart() {
        let draft = valid::draft(&mut Random::new(1), Size::Small);
        let [mut one, mut two] = [0, 1].map(|_| Random::new(9));
        ask(&mut one, &draft, &[]);
        records::ledger(&mut two, &draft);
        records::counts(&mut two);
        numbers::user(&mut two, &draft);
        plans::any(&mut two, &draft);
        assert_eq!(one.bits(), two.bits());
    }
}
