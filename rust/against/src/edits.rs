//! Arrivals and departures beyond the comparison (document 02, N11): each by its sentences, held against the same
//! engine's Check and Idle, and lists of them.

use crate::answer::{self, Answer};
use crate::compare::{try_one, Difference};
use crate::engine::Engine;
use crate::reached::Reached;
use books::draft::BLOCK;
use books::edit_lists::EditList;
use books::edits::{Record, HEAD, RULES};
use books::Case;
use second::refusal::{BOOK_LENGTH, NO_RULE, RULES_FULL};
use second::Refusal;

const ARRIVAL_REFUSALS: Answer = Answer::Stated(
    "an arrival at 32 rules or more is 33, tested first, then 1 for a block not of 512 bytes, then come the \
     refusals of the book with the new block",
);
const DEPARTURE_REFUSALS: Answer =
    Answer::Stated("a departure has the refusals of the book as it is, then 24");
const LEFT: Answer = Answer::Stated("a refusal leaves the record as it was");
const REPLY: Answer = Answer::Stated("an accepted edit replies with the new mask");
const NUMBER: Answer = Answer::Stated("the number of rules is beside the book");
const BOOK: Answer =
    Answer::Stated("a rule arrives at the end or leaves by number, later ones moving down");
const BEHIND: Answer = Answer::Stated("an accepted edit clears the bytes behind the book");
const PAST: Answer = Answer::Stated("an accepted edit clears the bits past the last rule");
const SET: Answer = Answer::Stated("an arrival keeps the set marks of the rules already there");
const CLEAR: Answer = Answer::Stated("a departure keeps the clear marks of those that stay");
const AFRESH: Answer = Answer::Stated("every other mark is Idle's afresh");

/// What is stated of Idle at an arrival.
pub const NO_ARRIVAL: Answer = Answer::Stated("no arrival makes an idle rule needed");

/// What is stated of Idle at a departure.
pub const NO_DEPARTURE: Answer = Answer::Stated("no departure makes a needed rule idle");

/// What is stated of every list of edits.
pub const EVERY_LIST: Answer = Answer::Stated(
    "after every list of edits, from an accepted book without rules and a zero mask, the mask is the one that \
     Idle gives afresh for each rule",
);

/// What Idle says of each rule of a book; nothing where it is given up.
type Fresh = Vec<Option<bool>>;

/// What an edit left, where no sentence goes against it, and how many marks it kept, set ones and clear ones, though
/// Idle says otherwise.
struct Held {
    after: Record,
    kept_wrong: [u64; 2],
}

/// Goes through an edit of the first engine by its sentences.
pub fn try_edit(
    engines: [&dyn Engine; 2],
    case: &Case,
    reached: &mut Reached,
) -> Result<(), Box<Difference>> {
    let held = hold(engines[0], case, false)?;
    reached.edits.count_wrong(held.kept_wrong);
    Ok(())
}

/// Compares a list edit by edit, and holds the sentences against each engine.
pub fn try_list(
    engines: [&dyn Engine; 2],
    list: &EditList,
    reached: &mut Reached,
) -> Result<(), Box<Difference>> {
    let mut record = Record::of(&list.head);
    let mut answers = vec![];
    for edit in &list.edits {
        let case = edit.with(&record);
        answers.push(try_one(engines, &case, reached)?);
        hold(engines[1], &case, true)?;
        record = hold(engines[0], &case, true)?.after;
    }
    reached.edits.count_list(&list.edits, &answers);
    Ok(())
}

/// Holds the sentences against an engine. In a list the mask handed in is right.
fn hold(engine: &dyn Engine, case: &Case, in_list: bool) -> Result<Held, Box<Difference>> {
    let mut left = case.clone();
    let answer = answer::of(engine, &mut left);
    let after = left.edited().expect("it is an edit").clone();
    match kept_wrong(engine, case, &after, answer, in_list) {
        Ok(kept_wrong) => Ok(Held { after, kept_wrong }),
        Err(stated) => {
            let sides = [
                ("documents", stated, case.clone()),
                (engine.name(), answer, left),
            ];
            let case = case.clone();
            Err(Box::new(Difference { case, sides }))
        }
    }
}

/// The marks that were kept though Idle says otherwise, or the first sentence that does not hold.
fn kept_wrong(
    engine: &dyn Engine,
    case: &Case,
    after: &Record,
    answer: Answer,
    in_list: bool,
) -> Result<[u64; 2], Answer> {
    let refusals = match case {
        Case::Arrive(_) => ARRIVAL_REFUSALS,
        _ => DEPARTURE_REFUSALS,
    };
    let refused = refusal(engine, case).map(Answer::Refused);
    let made = match (refused, answer) {
        (_, Answer::GaveUp) => return Ok([0, 0]),
        (Some(refused), _) if answer != refused => return Err(refusals),
        (Some(_), _) if Some(after) != case.edited() => return Err(LEFT),
        (Some(_), _) => return Ok([0, 0]),
        (None, Answer::Marks(reply)) if reply != after.marks => return Err(REPLY),
        (None, Answer::Marks(_)) => Made::of(engine, case, after),
        _ => return Err(refusals),
    };
    let made = made.ok_or(refusals)?;
    match made.contradicted(in_list) {
        Some(stated) => Err(stated),
        None => Ok(made.kept_wrong()),
    }
}

/// Why an edit is to be refused, by the same engine's Check.
fn refusal(engine: &dyn Engine, case: &Case) -> Option<Refusal> {
    match case {
        Case::Arrive(given) if given.record.rules >= RULES as u32 => Some(Refusal::of(RULES_FULL)),
        Case::Arrive(given) if given.block.len() != BLOCK => Some(Refusal::of(BOOK_LENGTH)),
        Case::Arrive(given) => {
            let book = [given.record.book()?, &given.block].concat();
            engine.check(&book).err()
        }
        Case::Depart(given) => {
            let Some(book) = given.record.book() else {
                return Some(Refusal::of(BOOK_LENGTH));
            };
            let absent = given.rule >= given.record.rules;
            let absent = absent.then_some(Refusal::of(NO_RULE));
            engine.check(book).err().or(absent)
        }
        _ => None,
    }
}

/// An edit that is not refused.
struct Made<'a> {
    before: &'a Record,
    after: &'a Record,
    arrives: bool,
    /// The number that each rule of the new book had before; a new rule had none.
    old: Vec<Option<usize>>,
    /// The new book.
    book: Vec<u8>,
    /// What Idle says of the rules before and after. Of many before it is not asked.
    fresh: [Fresh; 2],
}

/// Rules up to which Idle is asked for those before an edit too.
const FEW: usize = 8;

impl<'a> Made<'a> {
    fn of(engine: &dyn Engine, case: &'a Case, after: &'a Record) -> Option<Made<'a>> {
        let before = case.edited()?;
        let was = before.book()?;
        let rules = before.rules as usize;
        let (arrives, old): (bool, Vec<Option<usize>>) = match case {
            Case::Arrive(_) => (true, (0..rules).map(Some).chain([None]).collect()),
            Case::Depart(given) => {
                let stay = (0..rules).filter(|&rule| rule != given.rule as usize);
                (false, stay.map(Some).collect())
            }
            _ => return None,
        };
        let mut book = was[..HEAD * BLOCK].to_vec();
        for old in &old {
            match (old, case) {
                (Some(old), _) => book.extend(before.rule(*old)),
                (None, Case::Arrive(given)) => book.extend(&given.block),
                _ => {}
            }
        }
        let few = match rules <= FEW {
            true => fresh(engine, was),
            false => vec![None; rules],
        };
        let fresh = [few, fresh(engine, &book)];
        Some(Made {
            before,
            after,
            arrives,
            old,
            book,
            fresh,
        })
    }

    /// The first sentence that does not hold.
    fn contradicted(&self, in_list: bool) -> Option<Answer> {
        let [book, behind] = match self.after.blocks.split_at_checked(self.book.len()) {
            Some((book, behind)) => [book, behind],
            None => return Some(BOOK),
        };
        let past = u64::from(self.after.marks) >> self.old.len();
        let in_turn = [
            (NUMBER, self.after.rules as usize == self.old.len()),
            (BOOK, book == self.book),
            (BEHIND, behind.iter().all(|&byte| byte == 0)),
            (PAST, past == 0),
            (EVERY_LIST, !in_list || self.all_are_fresh()),
            (SET, self.kept(true)),
            (CLEAR, self.kept(false)),
            (AFRESH, self.others_are_fresh()),
            (NO_ARRIVAL, self.stay_so(true)),
            (NO_DEPARTURE, self.stay_so(false)),
        ];
        let mut wrong = in_turn.into_iter().filter(|(_, holds)| !holds);
        wrong.next().map(|(stated, _)| stated)
    }

    /// The mark of a rule of the new book, before and after; a new rule had none.
    fn marks(&self, rule: usize) -> (Option<bool>, bool) {
        let before = self.old[rule].map(|old| has(self.before.marks, old));
        (before, has(self.after.marks, rule))
    }

    /// The marks that an edit keeps: set ones at an arrival, clear ones at a departure.
    fn is_kept(&self, rule: usize) -> bool {
        self.marks(rule).0 == Some(self.arrives)
    }

    /// The set marks are kept where a rule arrived, the clear ones where one left.
    fn kept(&self, set: bool) -> bool {
        let mut kept = (0..self.old.len()).filter(|&rule| self.is_kept(rule));
        self.arrives != set || kept.all(|rule| self.marks(rule).1 == set)
    }

    fn is_fresh(&self, rule: usize) -> bool {
        self.fresh[1][rule].is_none_or(|idle| idle == self.marks(rule).1)
    }

    fn all_are_fresh(&self) -> bool {
        (0..self.old.len()).all(|rule| self.is_fresh(rule))
    }

    fn others_are_fresh(&self) -> bool {
        let mut others = (0..self.old.len()).filter(|&rule| !self.is_kept(rule));
        others.all(|rule| self.is_fresh(rule))
    }

    /// By Idle alone: idle rules stay idle where one arrived, needed ones stay needed where one left.
    fn stay_so(&self, idle: bool) -> bool {
        let [was, is] = &self.fresh;
        let mut rules = self.old.iter().zip(is);
        let changes = |(old, is): (&Option<usize>, &Option<bool>)| {
            old.is_some_and(|old| was[old] == Some(idle)) && *is == Some(!idle)
        };
        self.arrives != idle || !rules.any(changes)
    }

    /// The marks that were kept though Idle says otherwise: set ones and clear ones.
    fn kept_wrong(&self) -> [u64; 2] {
        let kept = (0..self.old.len()).filter(|&rule| self.is_kept(rule));
        let wrong = kept.filter(|&rule| !self.is_fresh(rule)).count() as u64;
        match self.arrives {
            true => [wrong, 0],
            false => [0, wrong],
        }
    }
}

fn has(marks: u32, rule: usize) -> bool {
    marks >> rule & 1 == 1
}

/// What the engine's Idle says of each rule. Of a refused book it says nothing.
fn fresh(engine: &dyn Engine, book: &[u8]) -> Fresh {
    let rules = (book.len() / BLOCK - HEAD) as u32;
    let idle = |rule: u32| {
        let shown = engine.idle(book, rule, &mut [0; 36])?;
        Some(shown.ok()?.is_none())
    };
    (0..rules).map(idle).collect()
}
