//! Asking, committing and dropping beyond the comparison: each call by its sentences (document 02, N3, N8 and
//! N10).

use crate::answer::Answer;
use crate::compare::Difference;
use crate::engine::Engine;
use crate::kept::left;
use crate::words::{flows, free, join, mask, seen_and_held};
use books::records::{Records, LEDGER, PLACES, USERS};
use books::reserve::{Ask, Settle};
use books::Case;
use second::ledger::words_of_mut;
use second::refusal::{COUNTS_FULL, EIGHT_HELD, LEDGER_LENGTH, NOT_HELD, NO_USER};
use second::{reading, Refusal};

/// A call at which two sides differ, and what each answers and leaves of its records.
pub fn differ(case: &Case, sides: [(&'static str, Answer, Records); 2]) -> Box<Difference> {
    let sides = sides.map(|(name, answer, after)| (name, answer, case.with_records(after)));
    let case = case.clone();
    Box::new(Difference { case, sides })
}

/// Goes through one call by its sentences; calls that have no records are passed over.
pub fn try_step(
    engines: [&dyn Engine; 2],
    case: &Case,
    answer: Answer,
) -> Result<(), Box<Difference>> {
    let Some(before) = case.records() else {
        return Ok(());
    };
    let after = left(engines[0], case);
    let mut wanted_after = before.clone();
    let wanted = match case {
        _ if is_earlier(answer) => answer,
        Case::Ask(given) => refused_or(asked(engines[0], given, &mut wanted_after)),
        Case::Commit(given) => refused_or(settled(given, true, &mut wanted_after)),
        Case::Drop(given) => refused_or(settled(given, false, &mut wanted_after)),
        _ => answer,
    };
    if (wanted, &wanted_after) == (answer, &after) {
        return Ok(());
    }
    let documents = ("documents", wanted, wanted_after);
    let engine = (engines[0].name(), answer, after);
    Err(differ(case, [documents, engine]))
}

/// Refusals of the book, the user and the plan are not asked for here, but they change nothing.
fn is_earlier(answer: Answer) -> bool {
    matches!(answer, Answer::Refused(refusal) if refusal.number < LEDGER_LENGTH)
}

fn refused_or(answer: Result<Answer, u32>) -> Answer {
    answer.unwrap_or_else(|number| Answer::Refused(Refusal::of(number)))
}

/// The user, where the ledger has words for him.
fn user_of(user: u32, records: &Records) -> Result<usize, u32> {
    let user = user as usize;
    match records.ledger.len() {
        _ if user >= USERS => Err(NO_USER),
        LEDGER => Ok(user),
        _ => Err(LEDGER_LENGTH),
    }
}

/// What an ask is to answer and to leave, with the accesses that the engine itself gives by Flows.
fn asked(engine: &dyn Engine, given: &Ask, after: &mut Records) -> Result<Answer, u32> {
    let user = user_of(given.user, &given.records)?;
    let Records { tally, holds, .. } = &given.records;
    // "admitted + dropped + held"
    let counts = [tally.admitted[user], tally.dropped[user]].map(u64::from);
    let before = counts[0] + counts[1] + holds.of_user(given.user).count() as u64;
    if before + u64::from(tally.declined[user]) >= 1_000_000 {
        return Err(COUNTS_FULL);
    }
    let mut empty = (0..PLACES).filter(|&place| holds.numbers[place] == 0);
    let place = empty.next().ok_or(EIGHT_HELD)?;
    let plan = flows(engine, &given.book, &given.plan);
    let mut union = seen_and_held(&given.records, user);
    join(&mut union, &plan);
    let book = reading::read(&given.book).map_err(|refusal| refusal.number)?;
    let mask = mask(&book, user, &union);
    if mask != 0 {
        after.tally.declined[user] += 1;
        return Ok(Answer::Declined(mask));
    }
    let number = (1 + before) as u32;
    (after.holds.users[place], after.holds.numbers[place]) = (given.user, number);
    after.holds.words_of_mut(place).copy_from_slice(&plan);
    Ok(Answer::Held(number))
}

/// What a commit or a drop is to answer and to leave.
fn settled(given: &Settle, commits: bool, after: &mut Records) -> Result<Answer, u32> {
    let user = user_of(given.user, &given.records)?;
    let holds = &given.records.holds;
    let mut his = holds.of_user(given.user);
    let place = his.find(|&place| holds.numbers[place] == given.number);
    let place = place.ok_or(NOT_HELD)?;
    let count = match commits {
        true => &mut after.tally.admitted[user],
        false => &mut after.tally.dropped[user],
    };
    *count = count.saturating_add(1);
    if commits {
        join(words_of_mut(&mut after.ledger, user), holds.words_of(place));
    }
    free(&mut after.holds, place);
    Ok(Answer::Settled(given.number))
}
