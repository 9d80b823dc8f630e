//! What was reached of arrivals and departures.

use crate::answer::Answer;
use books::draft::BLOCK;
use books::edit_lists::Edit;
use books::edits::{Arrive, Depart, Record, HEAD, RULES};
use books::Case;
use second::refusal::{BOOK_LENGTH, NO_RULE, RULES_FULL};
use std::fmt;

/// How often each thing happened.
#[derive(Clone, Debug, Default, PartialEq, Eq)]
pub struct EditCounts {
    /// Arrivals that are accepted.
    pub arrivals: u64,
    /// Of these, those of a 32nd rule.
    pub last: u64,
    /// New rules that are idle.
    pub new: u64,
    /// Marks of rules already there that an arrival set.
    pub set: u64,
    /// Of the accepted arrivals, those that set two and more at once.
    pub set_together: u64,
    /// Departures that are accepted.
    pub departures: u64,
    /// Marks of rules that stay that a departure cleared.
    pub cleared: u64,
    /// Of the accepted departures, those that clear two and more at once.
    pub cleared_together: u64,
    /// Set marks of rules that stay that went to another number.
    pub moved: u64,
    /// Set marks that an arrival kept of rules that Idle calls needed.
    pub wrong_set: u64,
    /// Clear marks that a departure kept of rules that Idle calls idle.
    pub wrong_clear: u64,
    /// Accepted edits with bits past the last rule handed in.
    pub past: u64,
    /// Accepted edits with bytes behind the book handed in.
    pub behind: u64,
    /// Arrivals refused with 33.
    pub full: u64,
    /// Of these, those whose number of rules is above 32.
    pub above: u64,
    /// Those whose block is not of 512 bytes.
    pub full_and_length: u64,
    /// Arrivals refused with 1.
    pub length: u64,
    /// Arrivals refused for the new block.
    pub new_block: u64,
    /// Of these, those whose book without it is refused too, for what comes later.
    pub before_old: u64,
    /// Arrivals refused for a block that was there.
    pub old_block: u64,
    /// Departures refused with 1.
    pub too_long: u64,
    /// Departures refused for the book.
    pub of_book: u64,
    /// Departures refused with 24.
    pub absent: u64,
    /// Lists of edits.
    pub lists: u64,
    /// Of these, those in which arrivals set marks and departures clear some.
    pub mixed_lists: u64,
    /// Those with an arrival that is refused with 33.
    pub full_lists: u64,
}

impl EditCounts {
    /// Counts an edit and the answer to it. What an engine answers is not always right.
    pub fn count(&mut self, case: &Case, answer: Answer) {
        match (case, answer) {
            (Case::Arrive(given), Answer::Marks(marks)) => self.count_arrival(given, marks),
            (Case::Depart(given), Answer::Marks(marks)) => self.count_departure(given, marks),
            (Case::Arrive(given), Answer::Refused(refusal)) => match refusal.number {
                RULES_FULL => self.count_full(given),
                BOOK_LENGTH => self.length += 1,
                _ => self.count_refused(given, refusal.place),
            },
            (Case::Depart(_), Answer::Refused(refusal)) => match refusal.number {
                BOOK_LENGTH => self.too_long += 1,
                NO_RULE => self.absent += 1,
                _ => self.of_book += 1,
            },
            _ => {}
        }
    }

    fn count_arrival(&mut self, given: &Arrive, marks: u32) {
        let Record {
            rules,
            marks: before,
            ..
        } = given.record;
        let set = set_marks(&given.record, marks);
        self.arrivals += 1;
        self.last += u64::from(rules + 1 == RULES as u32);
        self.new += u64::from(marks >> rules & 1);
        self.set += set;
        self.set_together += u64::from(set > 1);
        self.past += u64::from(before >> rules != 0);
        self.behind += u64::from(has_bytes_behind(&given.record));
    }

    fn count_departure(&mut self, given: &Depart, marks: u32) {
        let Record {
            rules,
            marks: before,
            ..
        } = given.record;
        let cleared = cleared_marks(given, marks);
        let moved = u64::from(before) & there(rules) & !there(given.rule + 1);
        self.departures += 1;
        self.cleared += cleared;
        self.cleared_together += u64::from(cleared > 1);
        self.moved += u64::from(moved.count_ones());
        self.past += u64::from(u64::from(before) & !there(rules) != 0);
        self.behind += u64::from(has_bytes_behind(&given.record));
    }

    fn count_full(&mut self, given: &Arrive) {
        self.full += 1;
        self.above += u64::from(given.record.rules > RULES as u32);
        self.full_and_length += u64::from(given.block.len() != BLOCK);
    }

    fn count_refused(&mut self, given: &Arrive, place: u32) {
        let new = place == given.record.rules + HEAD as u32;
        let alone = given.record.book().map(second::check);
        self.new_block += u64::from(new);
        self.before_old += u64::from(new && matches!(alone, Some(Err(_))));
        self.old_block += u64::from(!new);
    }

    /// Counts marks that were kept though Idle says otherwise: set ones and clear ones.
    pub fn count_wrong(&mut self, [set, clear]: [u64; 2]) {
        self.wrong_set += set;
        self.wrong_clear += clear;
    }

    /// Counts a list by the answers. From a zero mask on a mark is set by an arrival alone.
    pub fn count_list(&mut self, edits: &[Edit], answers: &[Answer]) {
        let full = |answer: &Answer| matches!(answer, Answer::Refused(r) if r.number == RULES_FULL);
        let replies = edits.iter().zip(answers);
        let replies = replies.filter_map(|(edit, answer)| match answer {
            Answer::Marks(marks) => Some((edit, marks.count_ones())),
            _ => None,
        });
        let replies: Vec<(&Edit, u32)> = replies.collect();
        let falls = |pair: &[(&Edit, u32)]| {
            // One of the marks may be that of the rule that left.
            matches!(pair[1].0, Edit::Depart(_)) && pair[1].1 + 1 < pair[0].1
        };
        self.lists += 1;
        self.mixed_lists += u64::from(replies.windows(2).any(falls));
        self.full_lists += u64::from(answers.iter().any(full));
    }

    /// What is to be reached more than once or twice.
    pub fn often(&self) -> [u64; 25] {
        [
            self.arrivals,
            self.last,
            self.new,
            self.set,
            self.set_together,
            self.departures,
            self.cleared,
            self.cleared_together,
            self.moved,
            self.wrong_set,
            self.wrong_clear,
            self.past,
            self.behind,
            self.full,
            self.above,
            self.full_and_length,
            self.length,
            self.new_block,
            self.before_old,
            self.old_block,
            self.too_long,
            self.of_book,
            self.absent,
            self.mixed_lists,
            self.full_lists,
        ]
    }
}

/// The bits of so many rules.
fn there(rules: u32) -> u64 {
    (1 << rules.min(32)) - 1
}

/// How many marks of rules already there are set and were not.
fn set_marks(before: &Record, marks: u32) -> u64 {
    let set = u64::from(marks & !before.marks) & there(before.rules);
    set.count_ones().into()
}

/// How many set marks of rules that stay are clear at their new numbers.
fn cleared_marks(given: &Depart, marks: u32) -> u64 {
    let before = given.record.marks;
    let stay = (0..given.record.rules).filter(|&rule| rule != given.rule);
    let cleared = stay.filter(|&old| {
        let new = if old < given.rule { old } else { old - 1 };
        before >> old & 1 == 1 && marks >> new & 1 == 0
    });
    cleared.count() as u64
}

fn has_bytes_behind(record: &Record) -> bool {
    let book = record.book().unwrap_or_default().len();
    record.blocks[book..].iter().any(|&byte| byte != 0)
}

impl EditCounts {
    fn of_arrivals(&self) -> String {
        format!(
            "arrivals: {} accepted ({} of a 32nd rule, {} of an idle one; {} marks set of rules already there, two \
             and more by {}), 33 for {} ({} above 32, {} with a block of another length), 1 for {}, {} for the new \
             block ({} before an old one), {} for an old one",
            self.arrivals,
            self.last,
            self.new,
            self.set,
            self.set_together,
            self.full,
            self.above,
            self.full_and_length,
            self.length,
            self.new_block,
            self.before_old,
            self.old_block
        )
    }

    fn of_departures(&self) -> String {
        format!(
            "departures: {} accepted ({} marks cleared of rules that stay, two and more by {}; {} set marks of rules \
             that move down), 1 for {} numbers above 32, {} for the book, 24 for {}",
            self.departures,
            self.cleared,
            self.cleared_together,
            self.moved,
            self.too_long,
            self.of_book,
            self.absent
        )
    }
}

impl fmt::Display for EditCounts {
    fn fmt(&self, f: &mut fmt::Formatter<'_>) -> fmt::Result {
        writeln!(f, "{}", self.of_arrivals())?;
        writeln!(f, "{}", self.of_departures())?;
        write!(
            f,
            "marks kept that were wrong when handed in: {} set, {} clear; bits past the last rule at {} edits, bytes \
             behind the book at {}; {} lists of edits ({} with marks cleared by departures, {} with 33)",
            self.wrong_set,
            self.wrong_clear,
            self.past,
            self.behind,
            self.lists,
            self.mixed_lists,
            self.full_lists
        )
    }
}

#[cfg(test)]
mod tests {
    use super::*;

    fn record(rules: u32, marks: u32) -> Record {
        let mut record = Record::of(&[]);
        (record.rules, record.marks) = (rules, marks);
        record
    }

    /// Rule 3 has its bit past the last of three; of rules 0 and 1 one is newly marked.
    #[test]
    fn marks_of_an_arrival() {
        let mut counts = EditCounts::default();
        let record = record(3, 0b1001);
        let block = vec![];
        let case = Case::Arrive(Arrive { record, block });
        counts.count(&case, Answer::Marks(0b1011));
        assert_eq!((counts.set, counts.new, counts.past), (1, 1, 1));
        counts.count(&case, Answer::Marks(0b0111));
        assert_eq!((counts.set, counts.new, counts.past), (3, 1, 2));
        assert_eq!((counts.arrivals, counts.set_together), (2, 1));
    }

    /// Rule 1 leaves. Rules 2 and 3 move down with their marks, of which one is cleared.
    #[test]
    fn marks_of_a_departure() {
        let mut counts = EditCounts::default();
        let mut record = record(4, 0b1111);
        record.blocks[8 * BLOCK] = 1;
        let case = Case::Depart(Depart { record, rule: 1 });
        counts.count(&case, Answer::Marks(0b011));
        assert_eq!((counts.cleared, counts.moved), (1, 2));
        counts.count(&case, Answer::Marks(0));
        assert_eq!((counts.cleared, counts.cleared_together), (4, 1));
        assert_eq!((counts.past, counts.behind), (0, 2));
    }
}
