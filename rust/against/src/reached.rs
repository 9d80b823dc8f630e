//! What was reached.

use crate::actions::{self, PAIRS};
use crate::answer::Answer;
use crate::edit_counts::EditCounts;
use crate::engine::unpacked;
use crate::hold_counts::HoldCounts;
use crate::mixing::{self, MISREADINGS};
use crate::tree_counts::TreeCounts;
use crate::withdrawn_counts::WithdrawnCounts;
use books::draft::BLOCK;
use books::Case;
use second::access::Access;
use second::breaking::breaks_alone;
use second::{choice, idle, reading, shown};
use std::collections::BTreeMap;
use std::fmt;

/// Every refusal number that the calls have.
pub const REFUSALS: [u32; 24] = [
    1, 2, 3, 4, 5, 6, 7, 8, 9, 10, 20, 21, 22, 23, 24, 25, 26, 27, 28, 29, 30, 31, 32, 33,
];

/// Those of Blocked, "book refusals, 24, then 26 if the rule forbids", and of Culprits.
pub const BLOCKED_REFUSALS: [u32; 11] = [1, 2, 3, 4, 5, 6, 7, 8, 9, 24, 26];

/// Those of Ask: "Judge's refusals, then 27 [..] then 28", "then 31".
pub const ASK_REFUSALS: [u32; 15] = [1, 2, 3, 4, 5, 6, 7, 8, 9, 20, 21, 22, 27, 28, 31];

/// Those of Commit and of Drop: "book refusals, 20 and 27, then 32".
pub const SETTLE_REFUSALS: [u32; 12] = [1, 2, 3, 4, 5, 6, 7, 8, 9, 20, 27, 32];

/// Those of Tree: "Flows' refusals 1 to 22, then 29 [..] then 30".
pub const TREE_REFUSALS: [u32; 13] = [1, 2, 3, 4, 5, 6, 7, 8, 9, 21, 22, 29, 30];

/// Those of an arrival: 33, 1, "then come the refusals of the book with the new block".
pub const ARRIVE_REFUSALS: [u32; 10] = [1, 2, 3, 4, 5, 6, 7, 8, 9, 33];

/// Those of a departure: "the refusals of the book as it is, then 24".
pub const DEPART_REFUSALS: [u32; 10] = [1, 2, 3, 4, 5, 6, 7, 8, 9, 24];

/// How often each thing happened.
#[derive(Clone, Debug, Default, PartialEq, Eq)]
pub struct Reached {
    /// Cases in all.
    pub cases: u64,
    /// Cases of each call.
    pub calls: BTreeMap<&'static str, u64>,
    /// Refusals by call and number.
    pub refusals: BTreeMap<(&'static str, u32), u64>,
    /// Rules that are not idle.
    pub needed: u64,
    /// Of these, those whose plan has fewer functions than the first in document 01's order.
    pub fewer_functions: u64,
    /// Rules that are idle.
    pub idle: u64,
    /// Of the idle ones, those that are idle in a book without other rules.
    pub idle_alone: u64,
    /// Of the idle ones, those that one other rule covers.
    pub covered_by_one: u64,
    /// Of the idle ones, those that only several others cover together.
    pub covered_by_several: u64,
    /// Rules whose data are open.
    pub open: u64,
    /// Rules of one, two and three references with data that stay closed.
    pub closed: [u64; 3],
    /// Of the closed ones, those that are closed in a book without other rules.
    pub closed_alone: u64,
    /// Of the closed ones, those that are open beside any one other rule alone.
    pub closed_by_several: u64,
    /// Rules that are not blocked, as Culprits says.
    pub unblocked: u64,
    /// Rules whose data are closed beside no, one, two and more other rules.
    pub causes: [u64; 4],
    /// Of these, those of which another set is left where rules are dropped from the lowest number up.
    pub causes_by_order: u64,
    /// Judged plans that break some rule.
    pub broken: u64,
    /// Judged plans whose verdict depends on each of [`PAIRS`].
    pub pairs: [u64; 6],
    /// Plans given to Flows whose accesses depend on each of [`MISREADINGS`].
    pub flows_misread: [u64; 6],
    /// Judged plans whose verdict depends on each of them.
    pub verdicts_misread: [u64; 6],
    /// Asks whose reply, or what is then held, depends on each of them.
    pub asks_misread: [u64; 6],
    /// What was reached of Ask, Commit and Drop.
    pub holds: HoldCounts,
    /// What was reached of Tree.
    pub trees: TreeCounts,
    /// What was reached of arrivals and departures.
    pub edits: EditCounts,
    /// What was reached of withdrawn operations.
    pub withdrawn: WithdrawnCounts,
    /// Searches that were given up.
    pub given_up: u64,
}

/// Which rules make a rule idle, or close its data: it alone, one other, or only several.
enum Cover {
    Alone,
    One,
    Several,
    Unknown,
}

impl Reached {
    /// Counts a case and the answer to it.
    pub fn count(&mut self, case: &Case, answer: Answer) {
        self.cases += 1;
        *self.calls.entry(case.call()).or_default() += 1;
        self.withdrawn.count(case, answer);
        self.holds.count(case, answer);
        self.edits.count(case, answer);
        if let Case::Tree(given) = case {
            self.trees.count(given, answer);
        }
        match answer {
            Answer::Refused(refusal) => {
                let of = (case.call(), refusal.number);
                *self.refusals.entry(of).or_default() += 1;
            }
            Answer::Needed(user, rows) => self.count_needed(case, user, rows),
            Answer::Broken(mask) => self.count_judged(case, mask),
            Answer::GaveUp => self.given_up += 1,
            Answer::Idle => self.count_idle(case),
            Answer::Open => self.open += 1,
            Answer::Closed(value) => self.count_closed(case, value),
            Answer::Unblocked => self.unblocked += 1,
            Answer::Few(mask) => self.count_causes(case, mask),
            Answer::Held(_) | Answer::Declined(_) => self.count_asked(case),
            Answer::Done => self.count_flows(case),
            Answer::Rules(_) | Answer::Written(_) => {}
            Answer::Settled(_) | Answer::Neither(_) | Answer::Marks(_) => {}
            Answer::NotIdle | Answer::NotClosed | Answer::Stated(_) => {}
        }
    }

    fn count_judged(&mut self, case: &Case, mask: u32) {
        self.broken += u64::from(mask != 0);
        if let Case::Judge { book, user, plan } = case {
            let user = *user as usize;
            let by_pair = actions::verdict_depends(book, user, plan);
            count_each(&mut self.pairs, by_pair);
            let by_misreading = mixing::verdict_depends(book, user, plan);
            count_each(&mut self.verdicts_misread, by_misreading);
        }
    }

    fn count_flows(&mut self, case: &Case) {
        if let Case::Flows { book, plan, .. } = case {
            count_each(&mut self.flows_misread, mixing::flows_depend(book, plan));
        }
    }

    fn count_needed(&mut self, case: &Case, user: u32, rows: u32) {
        self.needed += 1;
        if let Case::Idle { book, rule, .. } = case {
            let before = rows_before(book, *rule as usize, user as usize);
            let fewer = before.is_some_and(|before| (rows as usize) < before);
            self.fewer_functions += u64::from(fewer);
        }
    }

    fn count_closed(&mut self, case: &Case, value: u32) {
        let (_, data) = unpacked(value);
        self.closed[data.len() - 1] += 1;
        if let Case::Blocked { book, rule } = case {
            match closing(book, *rule as usize) {
                Cover::Alone => self.closed_alone += 1,
                Cover::Several => self.closed_by_several += 1,
                Cover::One | Cover::Unknown => {}
            }
        }
    }

    fn count_causes(&mut self, case: &Case, mask: u32) {
        let others = mask.count_ones() as usize - 1;
        self.causes[others.min(3)] += 1;
        if let Case::Culprits { book, rule } = case {
            let upward = left_from_the_lowest(book, *rule);
            self.causes_by_order += u64::from(upward.is_some_and(|other| other != mask));
        }
    }

    fn count_idle(&mut self, case: &Case) {
        self.idle += 1;
        if let Case::Idle { book, rule, .. } = case {
            match cover(book, *rule as usize) {
                Cover::Alone => self.idle_alone += 1,
                Cover::One => self.covered_by_one += 1,
                Cover::Several => self.covered_by_several += 1,
                Cover::Unknown => {}
            }
        }
    }

    fn count_asked(&mut self, case: &Case) {
        if let Case::Ask(given) = case {
            let by_misreading = mixing::ask_depends(given);
            count_each(&mut self.asks_misread, by_misreading);
        }
    }

    /// The verdicts that depend on each pair, in words.
    fn by_pair(&self) -> String {
        let each = PAIRS.iter().zip(self.pairs);
        let each = each.map(|((action, named), n)| format!("{action:?} against {named:?}: {n}"));
        each.collect::<Vec<_>>().join(", ")
    }

    /// The flows, verdicts and asks that depend on each misreading, in words.
    fn by_misreading(&self) -> String {
        let each = MISREADINGS.iter().enumerate().map(|(i, misreading)| {
            let flows = self.flows_misread[i];
            let (verdicts, asks) = (self.verdicts_misread[i], self.asks_misread[i]);
            format!("{misreading:?}: {flows}, {verdicts}, {asks}")
        });
        let each = each.collect::<Vec<_>>().join("; ");
        format!("flows, verdicts and asks that depend on {each}")
    }

    /// The rules behind the blocks, in words.
    fn by_others(&self) -> String {
        let [none, one, two, more] = self.causes;
        format!(
            "blocks: {} none, {none} by the rule alone, {one} with one other, {two} with two, {more} \
             with more (of {} another set is left from the lowest up)",
            self.unblocked, self.causes_by_order
        )
    }

    /// The refusals by their numbers, in words.
    fn by_number(&self) -> String {
        let each = REFUSALS.map(|number| format!(" {number}: {}", self.refused(number)));
        each.concat()
    }

    /// The refusals of a call by their numbers, in words.
    fn by_number_of(&self, call: &str) -> String {
        let of_call = self.refusals.iter().filter(|((of, _), _)| *of == call);
        of_call
            .map(|((_, number), times)| format!(" {number}: {times}"))
            .collect()
    }

    /// How often a refusal was reached, by any call.
    fn refused(&self, number: u32) -> u64 {
        let of_number = self.refusals.iter().filter(|((_, n), _)| *n == number);
        of_number.map(|(_, times)| times).sum()
    }

    /// The refusals that were not reached.
    pub fn not_reached(&self) -> Vec<u32> {
        let missing = |number: &u32| self.refused(*number) == 0;
        REFUSALS.into_iter().filter(missing).collect()
    }

    /// The refusals that a call gave.
    pub fn refusals_of(&self, call: &str) -> Vec<u32> {
        let of_call = self.refusals.keys().filter(|(of, _)| *of == call);
        of_call.map(|(_, number)| *number).collect()
    }
}

/// Counts what holds; nothing for what is refused.
fn count_each(counts: &mut [u64; 6], holds: Option<[bool; 6]>) {
    let each = counts.iter_mut().zip(holds.unwrap_or_default());
    each.for_each(|(n, holds)| *n += u64::from(holds));
}

/// Choices for a user above which document 01's order is not gone through.
const TRIED: u128 = 20_000;

/// The rows of the plan that comes first in document 01's order alone, without document 02's N2.
fn rows_before(book: &[u8], rule: usize, user: usize) -> Option<usize> {
    let book = reading::read(book).ok()?;
    if idle::choices(&book, rule) > TRIED {
        return None;
    }
    let candidates = choice::fitting(&book.rules[rule], &book.obtainable());
    let mut alone = |choice: &[Access]| {
        let accesses = choice.iter().copied().collect();
        breaks_alone(&book, user, rule, &accesses)
    };
    let first = choice::first(&candidates, &mut alone)?;
    Some(shown::plan(&book, &first).len())
}

/// Why an idle rule is idle.
fn cover(book: &[u8], rule: usize) -> Cover {
    beside(book, rule, |book| {
        let answer = second::idle_within(book, 0, &mut [0; 36], 5_000);
        answer.map(|answer| answer == Ok(None))
    })
}

/// Why the data of a rule stay closed.
fn closing(book: &[u8], rule: usize) -> Cover {
    beside(book, rule, |book| {
        let answer = second::blocked_within(book, 0, 5_000);
        answer.map(|answer| matches!(answer, Ok(Some(_))))
    })
}

/// The rules that close the data of a rule, itself among them, where others are dropped from the lowest
/// number up: those of the book with its rules the other way round. Blocked has no regard to their order.
fn left_from_the_lowest(book: &[u8], rule: u32) -> Option<u32> {
    let (head, rules) = book.split_at(4 * BLOCK);
    let turned: Vec<&[u8]> = rules.chunks(BLOCK).rev().collect();
    let last = turned.len() as u32 - 1;
    let asked = last.checked_sub(rule)?;
    let turned = [head, &turned.concat()].concat();
    let others = second::culprits_within(&turned, asked, 5_000)?.ok()??;
    let closing = (0..=last).filter(|&r| r == rule || others >> (last - r) & 1 == 1);
    Some(closing.map(|r| 1 << r).sum())
}

/// Which other rules it takes for what is said of a rule, from books in which it is rule 0 and fewer
/// stand beside it. Nothing is said where a search is given up.
fn beside(book: &[u8], rule: usize, said: impl Fn(&[u8]) -> Option<bool>) -> Cover {
    let (head, rules) = book.split_at(4 * BLOCK);
    let rules: Vec<&[u8]> = rules.chunks(BLOCK).collect();
    let among = |kept: &[&[u8]]| said(&[head, &kept.concat()].concat());
    let others = (0..rules.len()).filter(|&other| other != rule);
    match among(&[rules[rule]]) {
        None => return Cover::Unknown,
        Some(true) => return Cover::Alone,
        Some(false) => {}
    }
    let beside: Vec<Option<bool>> = others
        .map(|other| among(&[rules[rule], rules[other]]))
        .collect();
    if beside.contains(&Some(true)) {
        Cover::One
    } else if beside.contains(&None) {
        Cover::Unknown
    } else {
        Cover::Several
    }
}

impl fmt::Display for Reached {
    fn fmt(&self, f: &mut fmt::Formatter<'_>) -> fmt::Result {
        write!(f, "{} cases:", self.cases)?;
        for (call, n) in &self.calls {
            write!(f, " {call} {n}")?;
        }
        writeln!(f, "\nrefusals:{}", self.by_number())?;
        writeln!(f, "plans that break a rule: {}", self.broken)?;
        writeln!(f, "verdicts that depend on {}", self.by_pair())?;
        writeln!(f, "{}", self.by_misreading())?;
        write!(
            f,
            "rules: {} needed ({} with fewer functions than document 01's order shows), \
             {} idle ({} on their own, {} by one other, {} only by several others)",
            self.needed,
            self.fewer_functions,
            self.idle,
            self.idle_alone,
            self.covered_by_one,
            self.covered_by_several
        )?;
        let [one, two, three] = self.closed;
        write!(
            f,
            "\ndata: {} open, closed {one} of one reference, {two} of two, {three} of three \
             ({} on their own, {} only by several others)",
            self.open, self.closed_alone, self.closed_by_several
        )?;
        writeln!(f, "; {} searches given up", self.given_up)?;
        writeln!(f, "{}", self.by_others())?;
        writeln!(f, "{}", self.holds)?;
        writeln!(f, "{}", self.trees)?;
        writeln!(f, "{}", self.edits)?;
        let [arrivals, departures] = ["arrive", "depart"].map(|call| self.by_number_of(call));
        writeln!(
            f,
            "refusals of arrivals:{arrivals}; of departures:{departures}"
        )?;
        write!(f, "{}", self.withdrawn)
    }
}
