//! Asks, commits and drops in document 01's small shop, worked out by hand, for every engine (document 02, N10).

use against::answer::{self, Answer};
use against::engine::by_name;
use against::steps::try_step;
use books::histories::{Act, Call};
use books::named::small_shop;
use books::records::{Records, PLACES, USERS};
use books::Draft;
use second::Refusal;

const REPORT: u32 = 1;
const MARKETING: u32 = 2;

/// The state, the price and the average price, put out.
const STATE: [u8; 8] = [1, 0, 0, 0, 4, 0, 0, 0];
const PRICE: [u8; 8] = [1, 2, 0, 0, 4, 0, 0, 0];
const AVERAGE: [u8; 12] = [1, 2, 0, 0, 2, 1, 0, 255, 4, 1, 0, 0];

const STATE_BIT: u64 = 1 << 2;
const PRICE_BIT: u64 = 1 << 4;
const TOP: u32 = u32::MAX;

fn ask(user: u32, plan: &[u8]) -> Call {
    Call::ask(user, plan.to_vec())
}

fn commit(user: u32, number: u32) -> Call {
    let act = Act::Commit(number);
    Call { user, act }
}

fn drop_hold(user: u32, number: u32) -> Call {
    let act = Act::Drop(number);
    Call { user, act }
}

fn refused(number: u32) -> Answer {
    Answer::Refused(Refusal::of(number))
}

/// Every engine gives these replies from these records on, and leaves what is wanted.
fn each_replies(draft: &Draft, before: &Records, calls: &[(Call, Answer)], wanted: &Records) {
    let book = draft.bytes();
    for engine in ["second", "engine"].into_iter().filter_map(by_name) {
        let engine = engine.as_ref();
        let mut records = before.clone();
        for (i, (call, reply)) in calls.iter().enumerate() {
            let case = call.with(&book, &records);
            let mut after = case.clone();
            let answer = answer::of(engine, &mut after);
            assert_eq!(answer, *reply, "{}, call {i}: {call:?}", engine.name());
            let stepped = try_step([engine, engine], &case, answer);
            stepped.unwrap_or_else(|difference| panic!("{difference}"));
            records = after.records().expect("it has records").clone();
        }
        assert_eq!(records, *wanted, "{}", engine.name());
    }
}

/// Puts a hold in a place.
fn put(records: &mut Records, place: usize, hold: (u32, u32), words: &[(usize, u64)]) {
    (records.holds.users[place], records.holds.numbers[place]) = hold;
    let of = records.holds.words_of_mut(place);
    of.fill(0);
    words.iter().for_each(|&(i, word)| of[i] = word);
}

/// The counts of admitted, declined and dropped plans of a user.
fn count(records: &mut Records, user: u32, counts: [u32; 3]) {
    let tally = &mut records.tally;
    let of = [&mut tally.admitted, &mut tally.declined, &mut tally.dropped];
    for (of, count) in of.into_iter().zip(counts) {
        of[user as usize] = count;
    }
}

#[test]
fn a_plan_and_its_partner() {
    let calls = [
        (ask(REPORT, &STATE), Answer::Held(1)),
        (ask(REPORT, &PRICE), Answer::Declined(0b11)),
        (ask(MARKETING, &PRICE), Answer::Held(1)),
        (drop_hold(REPORT, 1), Answer::Settled(1)),
        (ask(REPORT, &PRICE), Answer::Held(2)),
        (ask(REPORT, &STATE), Answer::Declined(0b11)),
        (commit(REPORT, 2), Answer::Settled(2)),
        (commit(REPORT, 2), refused(32)),
        (commit(REPORT, 1), refused(32)),
        (commit(REPORT, 0), refused(32)),
        (ask(REPORT, &STATE), Answer::Declined(0b11)),
    ];
    let mut wanted = Records::fresh();
    wanted.ledger[32] = PRICE_BIT;
    count(&mut wanted, REPORT, [1, 3, 1]);
    put(&mut wanted, 1, (MARKETING, 1), &[(0, PRICE_BIT)]);
    let shop = small_shop().with_rules(&[0, 2]);
    each_replies(&shop, &Records::fresh(), &calls, &wanted);
}

#[test]
fn nine_asks_and_numbers() {
    let mut calls: Vec<(Call, Answer)> = (1..=8)
        .map(|number| (ask(MARKETING, &AVERAGE), Answer::Held(number)))
        .collect();
    calls.extend([
        (ask(MARKETING, &[]), refused(31)),
        (ask(REPORT, &PRICE), refused(31)),
        (drop_hold(REPORT, 3), refused(32)),
        (drop_hold(MARKETING, 3), Answer::Settled(3)),
        (ask(REPORT, &PRICE), Answer::Declined(0b010)),
        (ask(REPORT, &STATE), Answer::Held(1)),
        (ask(REPORT, &STATE), refused(31)),
        (commit(MARKETING, 8), Answer::Settled(8)),
        (drop_hold(MARKETING, 1), Answer::Settled(1)),
        (ask(MARKETING, &[]), Answer::Held(9)),
        (ask(MARKETING, &STATE), Answer::Held(10)),
        (ask(MARKETING, &[]), refused(31)),
    ]);
    let mut wanted = Records::fresh();
    for (place, number) in [(1, 2), (3, 4), (4, 5), (5, 6), (6, 7)] {
        put(&mut wanted, place, (MARKETING, number), &[(1, PRICE_BIT)]);
    }
    put(&mut wanted, 0, (MARKETING, 9), &[]);
    put(&mut wanted, 2, (REPORT, 1), &[(0, STATE_BIT)]);
    put(&mut wanted, 7, (MARKETING, 10), &[(0, STATE_BIT)]);
    wanted.ledger[65] = PRICE_BIT;
    count(&mut wanted, REPORT, [0, 1, 0]);
    count(&mut wanted, MARKETING, [1, 0, 2]);
    each_replies(&small_shop(), &Records::fresh(), &calls, &wanted);
}

/// Two places alike, counts at the top, and a number that no new hold can get.
#[test]
fn records_that_no_list_reaches() {
    let mut before = Records::fresh();
    put(&mut before, 2, (REPORT, TOP), &[(0, STATE_BIT)]);
    put(&mut before, 4, (REPORT, TOP), &[(31, u64::MAX)]);
    put(&mut before, 5, (REPORT, TOP), &[(0, PRICE_BIT)]);
    count(&mut before, REPORT, [TOP, 7, TOP]);
    let mut wanted = before.clone();
    put(&mut wanted, 2, (0, 0), &[]);
    put(&mut wanted, 4, (0, 0), &[]);
    wanted.ledger[32] = STATE_BIT;
    let calls = [
        (commit(REPORT, TOP), Answer::Settled(TOP)),
        (drop_hold(REPORT, TOP), Answer::Settled(TOP)),
        (drop_hold(REPORT, TOP - 1), refused(32)),
        (ask(REPORT, &[]), refused(28)),
    ];
    each_replies(&small_shop(), &before, &calls, &wanted);
}

/// Seven places of nobody and an empty one with something in it, which is neither joined nor counted.
#[test]
fn holds_of_nobody() {
    let mut before = Records::fresh();
    for place in 0..PLACES {
        let nobody = (USERS + place) as u32;
        put(
            &mut before,
            place,
            (nobody, 1),
            &[(0, STATE_BIT | PRICE_BIT)],
        );
    }
    put(
        &mut before,
        6,
        (REPORT, 0),
        &[(0, STATE_BIT | PRICE_BIT), (9, 1)],
    );
    let mut wanted = before.clone();
    put(&mut wanted, 6, (REPORT, 1), &[(1, PRICE_BIT)]);
    let calls = [
        (commit(REPORT, 0), refused(32)),
        (commit(REPORT, 1), refused(32)),
        (drop_hold(USERS as u32, 1), refused(20)),
        (ask(REPORT, &AVERAGE), Answer::Held(1)),
        (ask(MARKETING, &PRICE), refused(31)),
    ];
    each_replies(&small_shop(), &before, &calls, &wanted);
}
