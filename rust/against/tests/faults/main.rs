//! Faulty engines: the random cases tell each from the second implementation, and what is printed
//! of a difference shows it again.

mod actions;
mod asks;
mod base;
mod blocked;
mod culprits;
mod edit_steps;
mod edits;
mod mixing;
mod order;
mod settles;
mod steps;
mod tally;
mod tree;
mod withdrawn;
mod withdrawn_masks;

use against::actions::PAIRS;
use against::engine::{Blocking, Causes, Idleness, Marking, Reply, Search, Second, STEPS};
use against::mixing::MISREADINGS;
use against::run::try_case;
use against::withdrawn_counts::DEPENDING;
use against::{run, text, Difference, Engine, Limit, Reached};
use books::edits::Record;
use books::records::Records;
use books::trees::Tree;
use second::access::Access;
use second::book::Book;
use second::{shown, Refusal};
use std::fmt::Debug;
use steps::{ByStep, Right};

const GOOD: Second = Second {
    search: Search::Skipping(STEPS),
};

/// The thirteen calls of a faulty engine: those that it does not get wrong are the good one's.
trait Faulty {
    fn check(&self, book: &[u8]) -> Result<u32, Refusal> {
        GOOD.check(book)
    }

    fn seal(&self, block: &mut [u8]) -> Result<(), Refusal> {
        GOOD.seal(block)
    }

    fn flows(&self, book: &[u8], plan: &[u8], words: &mut [u64]) -> Result<(), Refusal> {
        GOOD.flows(book, plan, words)
    }

    fn judge(&self, book: &[u8], user: u32, plan: &[u8]) -> Result<u32, Refusal> {
        GOOD.judge(book, user, plan)
    }

    fn idle(&self, book: &[u8], rule: u32, buffer: &mut [u8]) -> Idleness {
        GOOD.idle(book, rule, buffer)
    }

    fn blocked(&self, book: &[u8], rule: u32) -> Blocking {
        GOOD.blocked(book, rule)
    }

    fn culprits(&self, book: &[u8], rule: u32) -> Causes {
        GOOD.culprits(book, rule)
    }

    fn ask(
        &self,
        book: &[u8],
        user: u32,
        plan: &[u8],
        records: &mut Records,
    ) -> Result<Reply, Refusal> {
        GOOD.ask(book, user, plan, records)
    }

    fn commit(
        &self,
        book: &[u8],
        user: u32,
        number: u32,
        records: &mut Records,
    ) -> Result<u32, Refusal> {
        GOOD.commit(book, user, number, records)
    }

    fn drop_hold(
        &self,
        book: &[u8],
        user: u32,
        number: u32,
        records: &mut Records,
    ) -> Result<u32, Refusal> {
        GOOD.drop_hold(book, user, number, records)
    }

    fn tree(&self, given: &mut Tree) -> Result<u32, Refusal> {
        GOOD.tree(given)
    }

    fn arrive(&self, record: &mut Record, block: &[u8]) -> Marking {
        GOOD.arrive(record, block)
    }

    fn depart(&self, record: &mut Record, rule: u32) -> Marking {
        GOOD.depart(record, rule)
    }
}

/// The engine of a fault.
struct FaultyEngine<F>(F);

impl<F: Faulty> Engine for FaultyEngine<F> {
    fn name(&self) -> &'static str {
        "faulty"
    }

    fn check(&self, book: &[u8]) -> Result<u32, Refusal> {
        self.0.check(book)
    }

    fn seal(&self, block: &mut [u8]) -> Result<(), Refusal> {
        self.0.seal(block)
    }

    fn flows(&self, book: &[u8], plan: &[u8], words: &mut [u64]) -> Result<(), Refusal> {
        self.0.flows(book, plan, words)
    }

    fn judge(&self, book: &[u8], user: u32, plan: &[u8]) -> Result<u32, Refusal> {
        self.0.judge(book, user, plan)
    }

    fn idle(&self, book: &[u8], rule: u32, buffer: &mut [u8]) -> Idleness {
        self.0.idle(book, rule, buffer)
    }

    fn blocked(&self, book: &[u8], rule: u32) -> Blocking {
        self.0.blocked(book, rule)
    }

    fn culprits(&self, book: &[u8], rule: u32) -> Causes {
        self.0.culprits(book, rule)
    }

    fn ask(
        &self,
        book: &[u8],
        user: u32,
        plan: &[u8],
        records: &mut Records,
    ) -> Result<Reply, Refusal> {
        self.0.ask(book, user, plan, records)
    }

    fn commit(
        &self,
        book: &[u8],
        user: u32,
        number: u32,
        records: &mut Records,
    ) -> Result<u32, Refusal> {
        self.0.commit(book, user, number, records)
    }

    fn drop_hold(
        &self,
        book: &[u8],
        user: u32,
        number: u32,
        records: &mut Records,
    ) -> Result<u32, Refusal> {
        self.0.drop_hold(book, user, number, records)
    }

    fn tree(&self, given: &mut Tree) -> Result<u32, Refusal> {
        self.0.tree(given)
    }

    fn arrive(&self, record: &mut Record, block: &[u8]) -> Marking {
        self.0.arrive(record, block)
    }

    fn depart(&self, record: &mut Record, rule: u32) -> Marking {
        self.0.depart(record, rule)
    }
}

/// What Idle answers where it shows a user and a choice; the plan is written to the buffer's front.
fn show(book: &Book, found: (usize, Vec<Access>), buffer: &mut [u8]) -> (u32, u32) {
    let (user, choice) = found;
    let rows = shown::plan(book, &choice);
    let plan = shown::bytes(&rows);
    buffer[..plan.len()].copy_from_slice(&plan);
    (user as u32, rows.len() as u32)
}

fn is_found_and_shown_again(fault: impl Faulty + Copy + Debug) {
    let engines: [&dyn Engine; 2] = [&FaultyEngine(fault), &GOOD];
    let mut cases = 0;
    let mut count = |reached: &Reached| cases = reached.cases;
    let difference = run(engines, 7, Limit::Cases(128_000), &mut count);
    let difference = difference
        .err()
        .unwrap_or_else(|| panic!("{fault:?} not found"));
    println!("{fault:?} found after {cases} cases");
    assert_shown_again(engines, &difference);
}

fn assert_shown_again(engines: [&dyn Engine; 2], difference: &Difference) {
    let again = text::read(&difference.to_string()).expect("it can be read");
    assert_eq!(again, difference.case);
    let seen = try_case(engines, &again, &mut Reached::default());
    assert!(seen.is_err(), "not seen again:\n{difference}");
}

#[test]
fn each_fault_is_found_and_shown_again() {
    base::FAULTS.into_iter().for_each(is_found_and_shown_again);
}

#[test]
fn each_fault_of_actions_is_found_and_shown_again() {
    for pair in PAIRS {
        is_found_and_shown_again(actions::InJudge(pair));
        is_found_and_shown_again(actions::InIdle(pair));
        is_found_and_shown_again(actions::InBlocked(pair));
        is_found_and_shown_again(actions::InCulprits(pair));
    }
}

#[test]
fn each_fault_of_blocked_is_found_and_shown_again() {
    blocked::FAULTS
        .into_iter()
        .for_each(is_found_and_shown_again);
}

#[test]
fn each_fault_of_culprits_is_found_and_shown_again() {
    culprits::FAULTS
        .into_iter()
        .for_each(is_found_and_shown_again);
}

#[test]
fn what_is_stated_of_culprits_finds_faults_alone() {
    let faults = culprits::FAULTS.into_iter();
    faults.for_each(culprits::is_found_by_judge);
}

#[test]
fn each_fault_of_mixing_is_found_and_shown_again() {
    for misreading in MISREADINGS {
        is_found_and_shown_again(mixing::InFlows(misreading));
        is_found_and_shown_again(mixing::InJudge(misreading));
        is_found_and_shown_again(mixing::InAsk(misreading));
    }
}

#[test]
fn each_fault_of_the_order_is_found_and_shown_again() {
    order::FAULTS.into_iter().for_each(is_found_and_shown_again);
}

#[test]
fn each_fault_of_ask_is_found_and_shown_again() {
    let faults = asks::AGAINST_LISTS.into_iter().chain(asks::OTHERS);
    let faults = faults.chain(asks::BEFORE);
    faults.map(ByStep).for_each(is_found_and_shown_again);
}

#[test]
fn each_fault_of_commit_and_drop_is_found_and_shown_again() {
    let faults = settles::AGAINST_LISTS.into_iter().chain(settles::OTHERS);
    faults.map(ByStep).for_each(is_found_and_shown_again);
}

#[test]
fn each_fault_of_the_tally_is_found_and_shown_again() {
    tally::faults()
        .map(ByStep)
        .for_each(is_found_and_shown_again);
}

#[test]
fn what_is_stated_of_lists_finds_faults_alone() {
    let faults = asks::AGAINST_LISTS.into_iter();
    faults.for_each(tally::is_found_by_the_lists);
    let faults = settles::AGAINST_LISTS.into_iter();
    faults.for_each(tally::is_found_by_the_lists);
    let faults = tally::AGAINST_LISTS.into_iter();
    faults.for_each(tally::is_found_by_the_lists);
}

#[test]
fn what_is_stated_of_a_call_finds_faults_alone() {
    let faults = asks::AGAINST_LISTS.into_iter().chain(asks::OTHERS);
    faults.for_each(tally::is_found_by_the_sentences);
    let faults = settles::AGAINST_LISTS.into_iter().chain(settles::OTHERS);
    faults.for_each(tally::is_found_by_the_sentences);
    tally::faults().for_each(tally::is_found_by_the_sentences);
}

#[test]
fn what_is_stated_of_alike_histories_finds_faults_alone() {
    let faults = tally::AGAINST_ALIKE.into_iter();
    faults.for_each(tally::is_found_by_alike_histories);
}

/// What the faults are made with is none itself: the calls step by step.
#[test]
fn the_right_steps_are_no_fault() {
    let engine = FaultyEngine(ByStep(Right));
    let result = run([&engine, &GOOD], 7, Limit::Cases(10_000), &mut |_| ());
    let reached = result.unwrap_or_else(|difference| panic!("{difference}"));
    assert!(reached.holds.histories > 5, "{reached}");
}

#[test]
fn each_fault_of_tree_is_found_and_shown_again() {
    tree::FAULTS.into_iter().for_each(is_found_and_shown_again);
}

#[test]
fn what_is_stated_of_trees_finds_faults_alone() {
    tree::FAULTS
        .into_iter()
        .for_each(tree::is_found_by_the_sentences);
}

/// Edits alone are soon made; of the rounds with all calls those faults are asked for that show in lists.
#[test]
fn each_fault_of_edits_is_found_and_shown_again() {
    edits::FAULTS.into_iter().for_each(edits::is_found);
    let faults = edits::AGAINST_LISTS.into_iter();
    faults.for_each(is_found_and_shown_again);
}

#[test]
fn what_is_stated_of_edits_finds_faults_alone() {
    let faults = edits::FAULTS.into_iter();
    faults.for_each(edits::is_found_by_the_sentences);
}

#[test]
fn what_is_stated_of_lists_of_edits_finds_faults_alone() {
    let faults = edits::AGAINST_LISTS.into_iter();
    faults.for_each(edits::is_found_by_the_lists);
}

#[test]
fn what_is_stated_of_idle_finds_a_fault_alone() {
    edits::is_found_by_idle();
}

/// What the faults are made with is none itself: the edits step by step.
#[test]
fn the_right_edits_are_no_fault() {
    let reached = edits::without_fault();
    let counts = [reached.edits.arrivals, reached.edits.departures];
    assert!(counts.iter().all(|&n| n > 100), "{reached}");
}

#[test]
fn each_fault_of_kinds_is_found_and_shown_again() {
    withdrawn::OF_KINDS
        .into_iter()
        .for_each(is_found_and_shown_again);
}

#[test]
fn each_fault_of_withdrawn_masks_is_found_and_shown_again() {
    withdrawn_masks::FAULTS
        .into_iter()
        .for_each(is_found_and_shown_again);
}

#[test]
fn each_fault_of_withdrawn_operations_is_found_and_shown_again() {
    withdrawn_masks::OF_SUPPORT
        .into_iter()
        .for_each(is_found_and_shown_again);
    for call in DEPENDING {
        is_found_and_shown_again(withdrawn::IgnoredIn(call));
    }
}

/// What the faults are made with is none itself: a book that is written otherwise, or taken as it is.
#[test]
fn the_same_book_is_no_fault() {
    let same = FaultyEngine(withdrawn_masks::Support::Right);
    let never = FaultyEngine(withdrawn::IgnoredIn("seal"));
    for engine in [&same as &dyn Engine, &never] {
        let result = run([engine, &GOOD], 7, Limit::Cases(5_000), &mut |_| ());
        let reached = result.unwrap_or_else(|difference| panic!("{difference}"));
        assert!(reached.withdrawn.accepted > 20, "{reached}");
    }
}

#[test]
fn what_is_stated_of_kinds_finds_faults_alone() {
    let faults = withdrawn::AGAINST_KINDS.into_iter();
    faults.for_each(withdrawn::is_found_by_kinds);
    let faults = withdrawn_masks::AGAINST_KINDS.into_iter();
    faults.for_each(withdrawn::is_found_by_kinds);
    let faults = withdrawn_masks::SUPPORT_AGAINST_KINDS.into_iter();
    faults.for_each(withdrawn::is_found_by_kinds);
}
