//! Lists of calls from fresh, by what is stated of all lists (document 02, N3, N8 and N10). The statements go by
//! the replies alone.

use crate::answer::Answer;
use crate::compare::{try_one, Difference};
use crate::engine::Engine;
use crate::kept::left;
use crate::reached::Reached;
use crate::steps::differ;
use crate::words::{flows, free, join, mask, seen_and_held};
use books::histories::{Act, Call, History};
use books::records::{Records, Tally, PLACES, USERS};
use second::book::Book;
use second::ledger::words_of_mut;
use second::refusal::EIGHT_HELD;
use second::{reading, Refusal};
use std::collections::BTreeSet;

const UNION: Answer =
    Answer::Stated("each user's words are the union of his committed plans' accesses");
const UNBROKEN: Answer =
    Answer::Stated("each user's words joined with his held plans break no rule");
const COUNTED: Answer = Answer::Stated(
    "each user's admitted + dropped + held + declined is the number of his asks not refused",
);
const EACH: Answer =
    Answer::Stated("each user's counts are those of his plans committed, declined and dropped");
const ONCE: Answer = Answer::Stated("no number is given twice to a user");
const BELOW: Answer = Answer::Stated("a held number is below the next one of its user");
const EIGHT: Answer = Answer::Stated("at most eight are held");
const KEPT: Answer = Answer::Stated(
    "the plans held and neither committed nor dropped stand each with its user, number and accesses \
     as asked in the place that was the lowest empty one",
);
const WHILE_EIGHT: Answer =
    Answer::Stated("an ask is refused with 31 exactly while eight are held");
const HIS: Answer =
    Answer::Stated("a number can be committed or dropped exactly while its user holds it");
const GIVEN: Answer = Answer::Stated("committing and dropping reply with the number given");

const EIGHT_ARE_HELD: Answer = Answer::Refused(Refusal {
    number: EIGHT_HELD,
    place: 0,
});

/// What the replies to a list say, and nothing else.
struct Said {
    /// The records as the replies have them: the words of what is committed, the replies counted, and what is
    /// held.
    records: Records,
    /// For each user the asks that were not refused.
    asks: [u32; USERS],
    /// The numbers that were given to users.
    given: BTreeSet<(u32, u32)>,
    /// The first statement that a reply goes against by itself.
    contradicted: Option<Answer>,
}

/// What a history gave.
pub struct Past {
    /// For each call whether eight were held before it, and the reply.
    pub replies: Vec<(bool, Answer)>,
    /// The records at the end.
    pub records: Records,
}

/// Compares a history call by call, and tries after each what is stated of the list so far.
pub fn try_history(
    engines: [&dyn Engine; 2],
    history: &History,
    reached: &mut Reached,
) -> Result<Past, Box<Difference>> {
    let book = reading::read(&history.book).expect("a history's book is sound");
    let mut said = Said {
        records: Records::fresh(),
        asks: [0; USERS],
        given: BTreeSet::new(),
        contradicted: None,
    };
    let mut replies = vec![];
    let mut kept = Records::fresh();
    for call in &history.calls {
        let case = call.with(&history.book, &kept);
        let answer = try_one(engines, &case, reached)?;
        let after = left(engines[0], &case);
        said.hear(engines[0], &history.book, call, answer);
        if let Some(stated) = said.contradicted(&book, call.user, &after) {
            let documents = ("documents", stated, said.records);
            let engine = (engines[0].name(), answer, after);
            return Err(differ(&case, [documents, engine]));
        }
        replies.push((kept.holds.held().count() == PLACES, answer));
        kept = after;
    }
    let records = kept;
    reached.holds.count_history(&history.calls, &replies);
    Ok(Past { replies, records })
}

/// One more for a user; a number past the tally has no count.
fn raise(counts: &mut [u32; USERS], user: u32) {
    let own = counts.get_mut(user as usize);
    own.into_iter().for_each(|count| *count += 1);
}

impl Said {
    fn hear(&mut self, engine: &dyn Engine, book: &[u8], call: &Call, answer: Answer) {
        match &call.act {
            Act::Ask(plan) => {
                let plan = flows(engine, book, plan);
                self.hear_ask(call.user, &plan, answer);
            }
            Act::Commit(number) => self.hear_settling(call.user, *number, true, answer),
            Act::Drop(number) => self.hear_settling(call.user, *number, false, answer),
        }
    }

    fn hear_ask(&mut self, user: u32, plan: &[u64], answer: Answer) {
        let numbers = self.records.holds.numbers;
        let empty = (0..PLACES).find(|&place| numbers[place] == 0);
        self.against(WHILE_EIGHT, empty.is_some() && answer == EIGHT_ARE_HELD);
        match answer {
            Answer::Held(number) => {
                raise(&mut self.asks, user);
                let given_before = !self.given.insert((user, number));
                self.against(ONCE, given_before);
                self.against(EIGHT, empty.is_none());
                if let Some(place) = empty {
                    let holds = &mut self.records.holds;
                    (holds.users[place], holds.numbers[place]) = (user, number);
                    holds.words_of_mut(place).copy_from_slice(plan);
                }
            }
            Answer::Declined(_) => {
                raise(&mut self.asks, user);
                raise(&mut self.records.tally.declined, user);
                self.against(WHILE_EIGHT, empty.is_none());
            }
            _ => {}
        }
    }

    fn hear_settling(&mut self, user: u32, number: u32, commits: bool, answer: Answer) {
        let Records {
            ledger,
            tally,
            holds,
        } = &mut self.records;
        let numbers = holds.numbers;
        let place = holds.of_user(user).find(|&place| numbers[place] == number);
        let Answer::Settled(replied) = answer else {
            self.against(HIS, place.is_some());
            return;
        };
        match commits {
            true => raise(&mut tally.admitted, user),
            false => raise(&mut tally.dropped, user),
        }
        if let Some(place) = place {
            if commits {
                join(words_of_mut(ledger, user as usize), holds.words_of(place));
            }
            free(holds, place);
        }
        self.against(HIS, place.is_none());
        self.against(GIVEN, replied != number);
    }

    /// A reply goes against a statement by itself, if it does.
    fn against(&mut self, stated: Answer, wrong: bool) {
        self.contradicted = self.contradicted.or(wrong.then_some(stated));
    }

    /// The first statement of the list that does not hold after a call of a user.
    fn contradicted(&self, book: &Book, user: u32, after: &Records) -> Option<Answer> {
        let Records {
            ledger,
            tally,
            holds,
        } = &self.records;
        let stated = [
            (UNION, after.ledger == *ledger),
            (COUNTED, sums(after) == self.asks.map(u64::from)),
            (EACH, after.tally == *tally),
            (KEPT, after.holds == *holds),
            (BELOW, held_are_below(after)),
            (UNBROKEN, breaks_nothing(book, user, after)),
        ];
        let mut wrong = stated.into_iter().filter(|(_, holds)| !holds);
        let wrong = wrong.next().map(|(stated, _)| stated);
        self.contradicted.or(wrong)
    }
}

/// A user's admitted + dropped + held.
fn numbered(records: &Records, user: usize) -> u64 {
    let Tally {
        admitted, dropped, ..
    } = &records.tally;
    let held = records.holds.of_user(user as u32).count() as u64;
    u64::from(admitted[user]) + u64::from(dropped[user]) + held
}

/// Each user's admitted + dropped + held + declined.
fn sums(records: &Records) -> [u64; USERS] {
    let declined = records.tally.declined.map(u64::from);
    std::array::from_fn(|user| numbered(records, user) + declined[user])
}

/// The next number is 1 + admitted + dropped + held.
fn held_are_below(records: &Records) -> bool {
    let mut users = 0..USERS;
    users.all(|user| {
        let next = 1 + numbered(records, user);
        let mut his = records.holds.of_user(user as u32);
        his.all(|place| u64::from(records.holds.numbers[place]) < next)
    })
}

/// The words of another user, and what he holds, are as they were.
fn breaks_nothing(book: &Book, user: u32, records: &Records) -> bool {
    let user = user as usize;
    user >= USERS || mask(book, user, &seen_and_held(records, user)) == 0
}
