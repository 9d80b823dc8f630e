//! What was reached of Ask, Commit and Drop.

use crate::answer::Answer;
use crate::records::{counts, places};
use crate::words::{join, mask, seen_and_held, Words};
use books::histories::{Act, Call};
use books::records::{Records, LEDGER, PLACES, USERS};
use books::reserve::{Ask, Settle};
use books::Case;
use second::book::Book;
use second::ledger::{self, words_of};
use second::refusal::{COUNTS_FULL, EIGHT_HELD, NOT_HELD};
use second::{path, plan, reading, Counts};
use std::fmt;

/// How often each thing happened.
#[derive(Clone, Debug, Default, PartialEq, Eq)]
pub struct HoldCounts {
    /// Plans that are held.
    pub held: u64,
    /// Of these, those that would break a rule with what others hold.
    pub held_beside_others: u64,
    /// Those whose user has seen or holds something else, which their places don't keep.
    pub held_alone: u64,
    /// Those that take the lowest of several empty places, and not the first of all.
    pub held_in_between: u64,
    /// Those that take a place with something in it.
    pub held_over: u64,
    /// Plans that are declined.
    pub declined: u64,
    /// Of these, those that break no rule by themselves.
    pub declined_for_before: u64,
    /// Those that break none with the words of their users either.
    pub declined_for_held: u64,
    /// Refused with 28 while another user's plans are not full.
    pub full_beside_room: u64,
    /// Held or declined while another user's plans are full.
    pub room_beside_full: u64,
    /// Refused with 28 for what the user holds.
    pub full_by_held: u64,
    /// Refused with 28 for what was dropped.
    pub full_by_dropped: u64,
    /// Refused with 28 while eight are held.
    pub full_and_eight: u64,
    /// Refused with 31.
    pub eight: u64,
    /// Of these, those of plans that would be declined.
    pub eight_and_broken: u64,
    /// Those for plans of nobody alone.
    pub eight_of_nobody: u64,
    /// Plans that are committed.
    pub committed: u64,
    /// Of these, those that break a rule with the words of their users.
    pub committed_untested: u64,
    /// Plans that are dropped.
    pub dropped: u64,
    /// Plans committed or dropped of which two places have the user and the number.
    pub of_two: u64,
    /// Those with a number above 1,000,000.
    pub of_high_number: u64,
    /// Those whose count is at its top value.
    pub at_the_top: u64,
    /// Refused with 32, as only others hold a plan with that number.
    pub of_another: u64,
    /// Refused with 32 for number 0, while an empty place has the user.
    pub of_empty_place: u64,
    /// Histories of calls.
    pub histories: u64,
    /// Of these, those in which plans are held, declined, committed and dropped, and refused with 31 and 32.
    pub mixed_histories: u64,
    /// Pairs of histories that are alike for a user.
    pub alike: u64,
    /// Of these, those that differ and in which he has plans held, declined, and committed or dropped, and an
    /// ask refused with 31, with others' calls between his.
    pub mixed_alike: u64,
}

impl HoldCounts {
    /// Counts a call and the answer to it. What an engine answers is not always right.
    pub fn count(&mut self, case: &Case, answer: Answer) {
        let counted = case.book().filter(|_| has_words(case));
        let Some(Ok(book)) = counted.map(reading::read) else {
            return;
        };
        match (case, answer) {
            (Case::Ask(given), Answer::Held(_)) => self.count_held(&book, given),
            (Case::Ask(given), Answer::Declined(_)) => self.count_declined(&book, given),
            (Case::Ask(given), Answer::Refused(refusal)) => match refusal.number {
                COUNTS_FULL => self.count_full(given),
                EIGHT_HELD => self.count_eight(&book, given),
                _ => {}
            },
            (Case::Commit(given), Answer::Settled(_)) => {
                self.committed += 1;
                self.committed_untested += u64::from(breaks_a_rule(&book, given));
                self.count_settled(given, given.records.tally.admitted[given.user as usize]);
            }
            (Case::Drop(given), Answer::Settled(_)) => {
                self.dropped += 1;
                self.count_settled(given, given.records.tally.dropped[given.user as usize]);
            }
            (Case::Commit(given) | Case::Drop(given), Answer::Refused(refusal)) => {
                let not_held = refusal.number == NOT_HELD;
                self.of_another += u64::from(not_held && is_anothers(given));
                self.of_empty_place += u64::from(not_held && is_of_an_empty_place(given));
            }
            _ => {}
        }
    }

    fn count_held(&mut self, book: &Book, given: &Ask) {
        let records = &given.records;
        let user = given.user as usize;
        let holds = &records.holds;
        self.held += 1;
        let before = seen_and_held(records, user);
        let mut all = before;
        let others = holds.held().map(|place| holds.words_of(place));
        others.for_each(|words| join(&mut all, words));
        let plan = plan_words(book, given);
        join(&mut all, &plan);
        self.held_beside_others += u64::from(mask(book, user, &all) != 0);
        let more = before
            .iter()
            .zip(plan)
            .any(|(word, plan)| word & !plan != 0);
        self.held_alone += u64::from(more);
        let mut empty = (0..PLACES).filter(|&place| holds.numbers[place] == 0);
        let [first, second] = [empty.next(), empty.next()];
        self.held_in_between += u64::from(first > Some(0) && second.is_some());
        let something = |place| holds.users[place] != 0 || holds.words_of(place) != [0; 32];
        self.held_over += u64::from(first.is_some_and(something));
        self.room_beside_full += u64::from(another_is(given, true));
    }

    fn count_declined(&mut self, book: &Book, given: &Ask) {
        let user = given.user as usize;
        self.declined += 1;
        let mut words = plan_words(book, given);
        let before = mask(book, user, &words) == 0;
        self.declined_for_before += u64::from(before);
        join(&mut words, words_of(&given.records.ledger, user));
        let held = mask(book, user, &words) == 0;
        self.declined_for_held += u64::from(held);
        self.room_beside_full += u64::from(another_is(given, true));
    }

    fn count_full(&mut self, given: &Ask) {
        let records = &given.records;
        let own = counts(&records.tally, given.user as usize);
        let held = records.holds.of_user(given.user).count();
        let none_dropped = Counts { dropped: 0, ..own };
        self.full_beside_room += u64::from(another_is(given, false));
        self.full_by_held += u64::from(!own.are_full(0));
        self.full_by_dropped += u64::from(!none_dropped.are_full(held));
        self.full_and_eight += u64::from(records.holds.held().count() == PLACES);
    }

    fn count_eight(&mut self, book: &Book, given: &Ask) {
        let records = &given.records;
        let user = given.user as usize;
        self.eight += 1;
        let mut union = seen_and_held(records, user);
        join(&mut union, &plan_words(book, given));
        self.eight_and_broken += u64::from(mask(book, user, &union) != 0);
        let mut users = records.holds.users.iter();
        let nobody = users.all(|&user| user >= USERS as u32);
        self.eight_of_nobody += u64::from(nobody);
    }

    /// Counts a hold that is settled, and the count that it raises.
    fn count_settled(&mut self, given: &Settle, count: u32) {
        self.of_two += u64::from(with_number(given).count() > 1);
        self.of_high_number += u64::from(given.number > 1_000_000);
        self.at_the_top += u64::from(count == u32::MAX);
    }

    /// Counts a history by its replies.
    pub fn count_history(&mut self, calls: &[Call], replies: &[(bool, Answer)]) {
        let replies = replies.iter().map(|(_, answer)| *answer);
        let with = calls.iter().zip(replies.clone());
        let mut settled = with.filter(|(_, answer)| matches!(answer, Answer::Settled(_)));
        let commits = settled
            .clone()
            .any(|(call, _)| matches!(call.act, Act::Commit(_)));
        let drops = settled.any(|(call, _)| matches!(call.act, Act::Drop(_)));
        let replies: Vec<Answer> = replies.collect();
        let mixed = commits && drops && both(&replies);
        let refused = has_refusal(&replies, EIGHT_HELD) && has_refusal(&replies, NOT_HELD);
        self.histories += 1;
        self.mixed_histories += u64::from(mixed && refused);
    }

    /// Counts two histories that are alike for a user, by his replies, and by whether they differ with
    /// others' calls between his.
    pub fn count_alike(&mut self, replies: &[Answer], between: bool) {
        let settled = replies.iter().any(|r| matches!(r, Answer::Settled(_)));
        let mixed = both(replies) && settled && has_refusal(replies, EIGHT_HELD);
        self.alike += 1;
        self.mixed_alike += u64::from(mixed && between);
    }

    /// What is to be reached more than once or twice.
    pub fn often(&self) -> [u64; 26] {
        [
            self.held,
            self.held_beside_others,
            self.held_alone,
            self.held_in_between,
            self.held_over,
            self.declined,
            self.declined_for_before,
            self.declined_for_held,
            self.full_beside_room,
            self.room_beside_full,
            self.full_by_held,
            self.full_by_dropped,
            self.full_and_eight,
            self.eight,
            self.eight_and_broken,
            self.eight_of_nobody,
            self.committed,
            self.committed_untested,
            self.dropped,
            self.of_two,
            self.of_high_number,
            self.at_the_top,
            self.of_another,
            self.of_empty_place,
            self.mixed_histories,
            self.mixed_alike,
        ]
    }
}

/// Are there words for the user in the ledger that a call is given?
fn has_words(case: &Case) -> bool {
    let user = match case {
        Case::Ask(given) => given.user,
        Case::Commit(given) | Case::Drop(given) => given.user,
        _ => return false,
    };
    let whole = |records: &Records| records.ledger.len() == LEDGER;
    user < USERS as u32 && case.records().is_some_and(whole)
}

/// The words of a plan; none of one that is refused.
fn plan_words(book: &Book, given: &Ask) -> Words {
    let mut words = [0; 32];
    if let Ok(rows) = plan::read(&given.plan, book) {
        ledger::write(&path::accesses(book, &rows), &mut words);
    }
    words
}

/// The places with the user and the number.
fn with_number(given: &Settle) -> impl Iterator<Item = usize> + '_ {
    let holds = &given.records.holds;
    let own = holds.of_user(given.user);
    own.filter(|&place| holds.numbers[place] == given.number)
}

/// Does a hold break a rule with the words of its user?
fn breaks_a_rule(book: &Book, given: &Settle) -> bool {
    let Records { ledger, holds, .. } = &given.records;
    let user = given.user as usize;
    with_number(given).next().is_some_and(|place| {
        let mut words = words_of(ledger, user).to_vec();
        join(&mut words, holds.words_of(place));
        mask(book, user, &words) != 0
    })
}

/// Does another user hold a plan with this number?
fn is_anothers(given: &Settle) -> bool {
    let holds = &given.records.holds;
    let mut places = holds.held();
    places.any(|place| holds.numbers[place] == given.number && holds.users[place] < USERS as u32)
}

/// Is the number 0, and does an empty place have the user?
fn is_of_an_empty_place(given: &Settle) -> bool {
    let holds = &given.records.holds;
    let mut places = (0..PLACES).filter(|&place| holds.numbers[place] == 0);
    given.number == 0 && places.any(|place| holds.users[place] == given.user)
}

/// Are plans held and others declined?
fn both(replies: &[Answer]) -> bool {
    let held = replies.iter().any(|r| matches!(r, Answer::Held(_)));
    held && replies.iter().any(|r| matches!(r, Answer::Declined(_)))
}

fn has_refusal(replies: &[Answer], number: u32) -> bool {
    let is = |reply: &Answer| matches!(reply, Answer::Refused(refusal) if refusal.number == number);
    replies.iter().any(is)
}

/// Is there another user whose plans are full, or not?
fn another_is(given: &Ask, full: bool) -> bool {
    let Records { tally, holds, .. } = &given.records;
    let holds = places(holds);
    let mut others = (0..USERS).filter(|user| *user != given.user as usize);
    others.any(|user| counts(tally, user).are_full(holds.of_user(user).count()) == full)
}

impl HoldCounts {
    fn of_asks(&self) -> String {
        format!(
            "asks: {} held ({} that break a rule with what others hold, {} beside something else of \
             their users, {} in the lowest of several empty places after the first, {} over something), \
             {} declined ({} that break no rule by themselves, {} none with the words either)",
            self.held,
            self.held_beside_others,
            self.held_alone,
            self.held_in_between,
            self.held_over,
            self.declined,
            self.declined_for_before,
            self.declined_for_held
        )
    }

    fn of_limits(&self) -> String {
        format!(
            "limits: {} answered beside a user whose plans are full, 28 for {} beside one whose are not, \
             {} for what is held, {} for what was dropped, {} while eight are held; 31 for {} ({} that \
             would be declined, {} for plans of nobody)",
            self.room_beside_full,
            self.full_beside_room,
            self.full_by_held,
            self.full_by_dropped,
            self.full_and_eight,
            self.eight,
            self.eight_and_broken,
            self.eight_of_nobody
        )
    }

    fn of_holds(&self) -> String {
        format!(
            "holds: {} committed ({} that break a rule), {} dropped; {} of two places, {} with a number \
             above 1,000,000, {} with a count at its top; 32 for {} of another user, {} of an empty place",
            self.committed,
            self.committed_untested,
            self.dropped,
            self.of_two,
            self.of_high_number,
            self.at_the_top,
            self.of_another,
            self.of_empty_place
        )
    }
}

impl fmt::Display for HoldCounts {
    fn fmt(&self, f: &mut fmt::Formatter<'_>) -> fmt::Result {
        writeln!(f, "{}", self.of_asks())?;
        writeln!(f, "{}", self.of_limits())?;
        writeln!(f, "{}", self.of_holds())?;
        write!(
            f,
            "{} histories ({} with plans held, declined, committed and dropped, and 31 and 32), {} pairs \
             alike for a user ({} with plans of his held, declined and settled and 31, and others' calls \
             between)",
            self.histories, self.mixed_histories, self.alike, self.mixed_alike
        )
    }
}

#[cfg(test)]
mod tests {
    use super::*;
    use books::named::small_shop;
    use second::Refusal;

    fn ask(records: &Records) -> Ask {
        Ask {
            book: small_shop().bytes(),
            user: 1,
            plan: vec![],
            records: records.clone(),
        }
    }

    fn refused(number: u32) -> Answer {
        Answer::Refused(Refusal::of(number))
    }

    /// What is full is counted beside what is not, and the other way round.
    #[test]
    fn beside_other_users() {
        let mut records = Records::fresh();
        let mut counts = HoldCounts::default();
        let count = |counts: &mut HoldCounts, records: &Records, answer| {
            counts.count(&ask(records).into(), answer);
            (counts.full_beside_room, counts.room_beside_full)
        };
        records.tally.dropped[1] = 1_000_000;
        assert_eq!(count(&mut counts, &records, refused(28)), (1, 0));
        assert_eq!(count(&mut counts, &records, refused(27)), (1, 0));
        assert_eq!(count(&mut counts, &records, Answer::Held(1)), (1, 0));
        records.tally.admitted[0] = 999_999;
        assert_eq!(count(&mut counts, &records, Answer::Held(1)), (1, 0));
        (records.holds.users[3], records.holds.numbers[3]) = (0, 5);
        assert_eq!(count(&mut counts, &records, Answer::Held(1)), (1, 1));
        records.tally.declined = [u32::MAX; USERS];
        assert_eq!(count(&mut counts, &records, refused(28)), (1, 1));
    }

    /// 28 for what is held, and for what was dropped, where it would not be without.
    #[test]
    fn full_by() {
        let mut counts = HoldCounts::default();
        let mut records = Records::fresh();
        (records.holds.users[3], records.holds.numbers[3]) = (1, 5);
        for (admitted, dropped, wanted) in [
            (1_000_000, 7, (0, 0)),
            (999_999, 0, (1, 0)),
            (999_998, 1, (2, 1)),
            (999_998, 2, (2, 2)),
        ] {
            (records.tally.admitted[1], records.tally.dropped[1]) = (admitted, dropped);
            counts.count(&ask(&records).into(), refused(28));
            assert_eq!((counts.full_by_held, counts.full_by_dropped), wanted);
        }
    }

    /// 32 for a number that another user holds, or nobody, or that an empty place has.
    #[test]
    fn not_held() {
        let mut counts = HoldCounts::default();
        let mut records = Records::fresh();
        (records.holds.users[3], records.holds.numbers[3]) = (2, 5);
        (records.holds.users[4], records.holds.numbers[4]) = (32, 6);
        for (user, number, wanted) in [
            (1, 6, (0, 0)),
            (1, 5, (1, 0)),
            (1, 0, (1, 0)),
            (0, 0, (1, 1)),
        ] {
            let settle = Settle {
                book: small_shop().bytes(),
                user,
                number,
                records: records.clone(),
            };
            counts.count(&Case::Drop(Box::new(settle)), refused(32));
            assert_eq!((counts.of_another, counts.of_empty_place), wanted);
        }
    }
}
