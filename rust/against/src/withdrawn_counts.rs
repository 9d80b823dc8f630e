//! What was reached of withdrawn operations (document 02, N9).

use crate::answer::{self, Answer};
use crate::categories::{self, Category};
use crate::engine::{Search, Second};
use books::draft::BLOCK;
use books::Case;
use second::refusal::{COUNT_OR_ZERO, MASK, PARENT_OR_OWN, WRONG_KIND};
use second::Refusal;
use std::collections::BTreeMap;
use std::fmt;

/// The calls whose answers depend on what a category supports; Check by refusal 9.
pub const DEPENDING: [&str; 7] = [
    "check", "flows", "judge", "idle", "blocked", "culprits", "ask",
];

/// The calls that are given a book.
const WITH_BOOK: [&str; 10] = [
    "check", "flows", "judge", "idle", "blocked", "culprits", "ask", "commit", "drop", "tree",
];

/// How often each thing happened. A book is counted once for each call that it is given to.
#[derive(Clone, Debug, Default, PartialEq, Eq)]
pub struct WithdrawnCounts {
    /// Accepted books with a block 1 of kind 6, by Check alone.
    pub accepted: u64,
    /// Of these, those with nothing withdrawn.
    pub nothing: u64,
    /// Those whose root withdraws something.
    pub by_root: u64,
    /// Those in which a category other than the root withdraws what it does not inherit.
    pub not_inherited: u64,
    /// Those in which an operation is withdrawn and given back further below.
    pub given_back: u64,
    /// Calls that are not refused for such a book.
    pub answered: BTreeMap<&'static str, u64>,
    /// Refused with 3, as kind 6 stands elsewhere than in block 1.
    pub elsewhere: u64,
    /// Refused with 4 for a byte after the last category of a block of kind 6.
    pub unused: u64,
    /// Refused with 5 for a parent in a block of kind 6, and for nothing else.
    pub parents: u64,
    /// Refused with 5 for bit 0 of own masks alone.
    pub own_bit: u64,
    /// Refused with 5 for bit 0 of withdrawn masks alone.
    pub withdrawn_bit: u64,
    /// Refused with 5 for operations in both masks alone.
    pub both_masks: u64,
    /// Answers that are others when nothing is withdrawn, by call.
    pub depending: BTreeMap<&'static str, u64>,
    /// Calls whose book is accepted, and calls whose book is refused, that are answered alike for the other kind
    /// of block 1.
    pub turned: BTreeMap<&'static str, [u64; 2]>,
    /// The same where more is withdrawn that nobody inherits.
    pub more: BTreeMap<&'static str, [u64; 2]>,
}

impl WithdrawnCounts {
    /// Counts a call and the answer to it.
    pub fn count(&mut self, case: &Case, answer: Answer) {
        let Some(book) = case.book() else { return };
        let call = case.call();
        if let Some(refusal) = book_refusal(answer) {
            self.count_refused(book, refusal);
        } else if categories::has_withdrawn(book) {
            *self.answered.entry(call).or_default() += 1;
            if let Case::Check { .. } = case {
                self.count_accepted(book);
            }
        }
        if DEPENDING.contains(&call) && depends(case, answer) {
            *self.depending.entry(call).or_default() += 1;
        }
    }

    fn count_accepted(&mut self, book: &[u8]) {
        let Some(all) = categories::read(book) else {
            return;
        };
        let inherited = categories::inherited(&all).unwrap_or_default();
        let withdraws = |of: &Category| of.withdrawn != 0;
        let mut below = all.iter().zip(&inherited).skip(1);
        self.accepted += 1;
        self.nothing += u64::from(!all.iter().any(withdraws));
        self.by_root += u64::from(withdraws(&all[0]));
        let not_inherited = below.any(|(of, inherited)| of.withdrawn & !inherited != 0);
        self.not_inherited += u64::from(not_inherited);
        self.given_back += u64::from(is_given_back(&all, &inherited));
    }

    fn count_refused(&mut self, book: &[u8], refusal: Refusal) {
        let place = refusal.place as usize;
        let kind_6 = categories::has_withdrawn(book);
        let categories = categories::read(book).filter(|_| kind_6 && place == 1);
        match (refusal.number, categories) {
            (WRONG_KIND, _) => {
                let elsewhere = place != 1 && book[place * BLOCK] == categories::WITH_WITHDRAWN;
                self.elsewhere += u64::from(elsewhere);
            }
            // The count is in its bounds.
            (COUNT_OR_ZERO, Some(_)) => self.unused += 1,
            (PARENT_OR_OWN, Some(all)) => self.count_unlawful(&all),
            _ => {}
        }
    }

    fn count_unlawful(&mut self, all: &[Category]) {
        let any = |wrong: fn(&Category) -> bool| all.iter().any(wrong);
        let wrong = [
            !categories::parents_are_lower(all),
            any(|of| of.own & 1 != 0),
            any(|of| of.withdrawn & 1 != 0),
            any(|of| of.own & of.withdrawn & categories::ALL != 0),
        ];
        match wrong {
            [true, false, false, false] => self.parents += 1,
            [false, true, false, false] => self.own_bit += 1,
            [false, false, true, false] => self.withdrawn_bit += 1,
            [false, false, false, true] => self.both_masks += 1,
            _ => {}
        }
    }

    /// Counts a call that is answered alike for the other kind of block 1.
    pub fn count_turned(&mut self, case: &Case, answer: Answer) {
        let counts = self.turned.entry(case.call()).or_default();
        counts[usize::from(book_refusal(answer).is_some())] += 1;
    }

    /// Counts one that is answered alike where more is withdrawn.
    pub fn count_more(&mut self, case: &Case, answer: Answer) {
        let counts = self.more.entry(case.call()).or_default();
        counts[usize::from(book_refusal(answer).is_some())] += 1;
    }

    /// What is to be reached more than once or twice.
    pub fn often(&self) -> Vec<u64> {
        let singly = [
            self.accepted,
            self.nothing,
            self.by_root,
            self.not_inherited,
            self.given_back,
            self.elsewhere,
            self.unused,
            self.parents,
            self.own_bit,
            self.withdrawn_bit,
            self.both_masks,
        ];
        let of = |counts: &BTreeMap<&str, u64>, call: &str| counts.get(call).copied().unwrap_or(0);
        let both = |counts: &BTreeMap<&str, [u64; 2]>, call: &str| {
            counts.get(call).copied().unwrap_or_default()
        };
        let depending = DEPENDING.map(|call| of(&self.depending, call));
        let answered = WITH_BOOK.map(|call| of(&self.answered, call));
        let turned = WITH_BOOK.map(|call| both(&self.turned, call));
        let more = WITH_BOOK.map(|call| both(&self.more, call));
        let alike = [turned.as_flattened(), more.as_flattened()].concat();
        [&singly[..], &depending, &answered, &alike].concat()
    }
}

/// Why the book is refused, if it is: 1 to 9.
fn book_refusal(answer: Answer) -> Option<Refusal> {
    match answer {
        Answer::Refused(refusal) if refusal.number <= MASK => Some(refusal),
        _ => None,
    }
}

/// Does a category own an operation that one above it has withdrawn, and that none between has given back?
fn is_given_back(all: &[Category], inherited: &[u16]) -> bool {
    // What each category lacks as it was withdrawn on the way down to it.
    let mut lacking: Vec<u16> = Vec::new();
    let mut given_back = false;
    for (of, inherited) in all.iter().zip(inherited) {
        let above = lacking.get(usize::from(of.parent)).copied().unwrap_or(0);
        given_back |= above & of.own != 0;
        lacking.push((above | of.withdrawn & inherited) & !of.own);
    }
    given_back
}

/// Searches for another answer are given up after so many steps.
const SECOND: Second = Second {
    search: Search::Skipping(5_000),
};

/// Is the answer another when nothing is withdrawn, or are other bytes left? A refused call counts where
/// a mask of a rule is the reason.
fn depends(case: &Case, answer: Answer) -> bool {
    let by_mask = matches!(answer, Answer::Refused(refusal) if refusal.number == MASK);
    let counts = match (case, answer) {
        (Case::Check { .. }, _) => by_mask,
        (_, Answer::Refused(_)) => false,
        _ => true,
    };
    let book = case.book().filter(|_| counts);
    let Some(kept) = book
        .and_then(categories::cleared)
        .and_then(|book| case.with_book(book))
    else {
        return false;
    };
    let [one, two] = [case, &kept].map(|case| {
        let mut after = case.clone();
        let answer = answer::of(&SECOND, &mut after);
        (answer, after.with_book(vec![]))
    });
    let given_up = [one.0, two.0].contains(&Answer::GaveUp);
    !given_up && one != two
}

/// Counts by call, in words.
fn by_call(counts: &BTreeMap<&str, u64>) -> String {
    let each = counts.iter().map(|(call, n)| format!("{call} {n}"));
    each.collect::<Vec<_>>().join(", ")
}

/// The calls answered alike, those with refused books in brackets.
fn alike(counts: &BTreeMap<&str, [u64; 2]>) -> String {
    let each = counts.iter();
    let each = each.map(|(call, [accepted, refused])| format!("{call} {accepted} ({refused})"));
    each.collect::<Vec<_>>().join(", ")
}

impl fmt::Display for WithdrawnCounts {
    fn fmt(&self, f: &mut fmt::Formatter<'_>) -> fmt::Result {
        writeln!(
            f,
            "books of kind 6: {} accepted ({} with nothing withdrawn, {} by the root, {} what is not \
             inherited, {} with an operation given back further below), 3 for {} elsewhere, 4 for {} after \
             the last category, 5 for {} parents, {} of bit 0 own, {} of bit 0 withdrawn, {} in both masks",
            self.accepted,
            self.nothing,
            self.by_root,
            self.not_inherited,
            self.given_back,
            self.elsewhere,
            self.unused,
            self.parents,
            self.own_bit,
            self.withdrawn_bit,
            self.both_masks
        )?;
        writeln!(f, "calls with such books: {}", by_call(&self.answered))?;
        writeln!(
            f,
            "answers that depend on what is withdrawn: {}",
            by_call(&self.depending)
        )?;
        writeln!(
            f,
            "answered alike by the other kind, with accepted books (and refused ones): {}",
            alike(&self.turned)
        )?;
        write!(
            f,
            "answered alike where more is withdrawn that nobody inherits: {}",
            alike(&self.more)
        )
    }
}

#[cfg(test)]
mod tests {
    use super::*;
    use books::addresses::{book, ADDRESS, TRUNCATE};
    use books::draft::{seal_all, ACCESS};
    use books::shop::{rule, ANALYST};

    fn category(parent: u8, own: u16, withdrawn: u16) -> Category {
        Category {
            parent,
            own,
            withdrawn,
        }
    }

    #[test]
    fn what_is_given_back() {
        let given_back = |all: &[Category]| {
            let inherited = categories::inherited(all).expect("the parents are lower");
            is_given_back(all, &inherited)
        };
        let [owns, withdraws] = [category(0, 2, 0), category(0, 0, 2)];
        assert!(given_back(&[owns, withdraws, category(1, 2, 0)]));
        assert!(given_back(&[
            owns,
            withdraws,
            category(1, 0, 0),
            category(2, 2, 0)
        ]));
        // beside it, by the root, or what is not inherited
        assert!(!given_back(&[owns, withdraws, category(0, 2, 0)]));
        assert!(!given_back(&[withdraws, owns]));
        assert!(!given_back(&[
            category(0, 4, 0),
            withdraws,
            category(1, 2, 0)
        ]));
        assert!(!given_back(&[owns, withdraws, category(1, 4, 0)]));
    }

    /// Each reason to refuse is counted where it is the only one.
    #[test]
    fn reasons_to_refuse() {
        let mut counts = WithdrawnCounts::default();
        let mut refuse = |changes: &[(usize, u8)], number: u32, block: usize| {
            let mut bytes = book(&[]).bytes();
            for &(byte, to) in changes {
                bytes[byte] |= to;
            }
            seal_all(&mut bytes);
            let refusal = Refusal::at(number, block);
            assert_eq!(second::check(&bytes), Err(refusal));
            counts.count(&Case::Check { book: bytes }, Answer::Refused(refusal));
        };
        refuse(&[(0, 7)], 3, 0);
        refuse(&[(3 * BLOCK, 2)], 3, 3);
        refuse(&[(BLOCK, 1)], 3, 1);
        refuse(&[(BLOCK + 32, 1)], 4, 1);
        refuse(&[(BLOCK + 1, 64)], 4, 1);
        refuse(&[(BLOCK + 12, 2)], 5, 1);
        refuse(&[(BLOCK + 14, 1)], 5, 1);
        refuse(&[(BLOCK + 16, 1)], 5, 1);
        refuse(&[(BLOCK + 14, 2)], 5, 1);
        refuse(&[(BLOCK + 14, 1), (BLOCK + 16, 1)], 5, 1);
        let wanted = WithdrawnCounts {
            elsewhere: 1,
            unused: 1,
            parents: 1,
            own_bit: 1,
            withdrawn_bit: 1,
            both_masks: 1,
            ..WithdrawnCounts::default()
        };
        assert_eq!(counts, wanted);
    }

    /// A lane that is put out under truncate: raw in this book, truncated if nothing were withdrawn. A house
    /// is truncated in both.
    #[test]
    fn answers_that_depend() {
        let truncated = rule(ANALYST, &[(ACCESS, ADDRESS)], &[&[TRUNCATE]]);
        let bytes = book(&[truncated]).bytes();
        let plan = |column: u8| [[1, column, 0, 0], [2, 1, 0, 255], [4, 1, 0, 0]].concat();
        let flows = |column: u8| Case::Flows {
            book: bytes.clone(),
            plan: plan(column),
            words: vec![0; 32],
        };
        assert!(depends(&flows(1), Answer::Done) && !depends(&flows(0), Answer::Done));
        let blocked = Case::Blocked {
            book: bytes.clone(),
            rule: 0,
        };
        assert!(depends(&blocked, Answer::Closed(1)));
        let check = Case::Check { book: bytes };
        assert!(!depends(&check, Answer::Rules(1)));
    }
}
