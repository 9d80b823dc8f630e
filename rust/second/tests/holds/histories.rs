//! Lists of calls from fresh (document 02, N10).

use crate::kept::*;
use books::named::small_shop;

/// Report holds the state and is declined the price; once the state is dropped he holds the price, and is declined
/// the state, also after it is committed. Rules 0 and 2 alone let each through by itself.
#[test]
fn a_plan_and_its_partner() {
    let mut kept = Kept::fresh(&small_shop().with_rules(&[0, 2]));
    kept.replies(&[
        (ask(REPORT, &STATE), held(1)),
        (ask(REPORT, &PRICE), declined(0b11)),
        (ask(MARKETING, &PRICE), held(1)),
    ]);
    let state = (REPORT, 1, vec![(0, STATE_BIT)]);
    let price = (MARKETING, 1, vec![(0, PRICE_BIT)]);
    assert_eq!(kept.places(), [(0, state), (1, price.clone())]);
    assert_eq!(kept.words(), []);
    kept.replies(&[
        (drop_hold(REPORT, 1), settled(1)),
        (ask(REPORT, &PRICE), held(2)),
        (ask(REPORT, &STATE), declined(0b11)),
    ]);
    let his = (REPORT, 2, vec![(0, PRICE_BIT)]);
    assert_eq!(kept.places(), [(0, his), (1, price.clone())]);
    kept.replies(&[
        (commit(REPORT, 2), settled(2)),
        (ask(REPORT, &STATE), declined(0b11)),
    ]);
    assert_eq!(kept.places(), [(1, price)]);
    assert_eq!(kept.words(), [(32, PRICE_BIT)]);
    assert_eq!(kept.counted(), [(REPORT, counts(1, 3, 1))]);
}

/// What is committed, what is held and what is asked make one association: a state is committed, an average held.
/// By rule 2 Report may have no sum beside it, Marketing may.
#[test]
fn committed_held_and_asked() {
    for (user, sum) in [(REPORT, declined(0b10)), (MARKETING, held(3))] {
        let mut kept = Kept::fresh(&small_shop().with_rules(&[0, 2]));
        kept.replies(&[
            (ask(user, &STATE), held(1)),
            (commit(user, 1), settled(1)),
            (ask(user, &AVERAGE), held(2)),
            (ask(user, &SUM), sum),
        ]);
    }
    // The state is held too, and so is what decides by the price.
    let mut kept = Kept::fresh(&small_shop().with_rules(&[0, 2]));
    kept.replies(&[
        (ask(REPORT, &BY_PRICE), held(1)),
        (ask(REPORT, &STATE), held(2)),
        (ask(REPORT, &AVERAGE), held(3)),
        (ask(REPORT, &SUM), declined(0b10)),
        (ask(REPORT, &PRICE), declined(0b11)),
        (drop_hold(REPORT, 2), settled(2)),
        (ask(REPORT, &SUM), held(4)),
        (ask(REPORT, &PRICE), held(5)),
        (ask(REPORT, &STATE), declined(0b11)),
    ]);
}

/// A ninth ask is refused, whoever asks and for what. A place that is freed is taken by the next hold.
#[test]
fn nine_asks() {
    let mut kept = Kept::fresh(&small_shop());
    let eight: Vec<_> = (1..=8)
        .map(|n| (ask(MARKETING, &AVERAGE), held(n)))
        .collect();
    kept.replies(&eight);
    let average = |number| (MARKETING, number, vec![(1, PRICE_BIT)]);
    let places: Vec<_> = (0..8).map(|i| (i, average(i as u32 + 1))).collect();
    assert_eq!(kept.places(), places);
    let all_refused = [
        (ask(MARKETING, &AVERAGE), refused(31)),
        (ask(MARKETING, &[]), refused(31)),
        (ask(REPORT, &STATE), refused(31)),
        // It would be declined.
        (ask(REPORT, &PRICE), refused(31)),
        (ask(MARKETING, &PRICE), refused(31)),
    ];
    kept.replies(&all_refused);
    assert_eq!((kept.counted(), kept.words()), (vec![], vec![]));
    kept.replies(&[
        (drop_hold(MARKETING, 3), settled(3)),
        (ask(REPORT, &PRICE), declined(0b010)),
        (ask(REPORT, &STATE), held(1)),
    ]);
    assert_eq!(kept.places()[2], (2, (REPORT, 1, vec![(0, STATE_BIT)])));
    kept.replies(&all_refused);
    kept.replies(&[
        (commit(MARKETING, 8), settled(8)),
        (ask(MARKETING, &[]), held(9)),
    ]);
    assert_eq!(kept.places()[7], (7, (MARKETING, 9, vec![])));
    assert_eq!(kept.words(), [(65, PRICE_BIT)]);
    kept.replies(&all_refused);
    let counted = [(REPORT, counts(0, 1, 0)), (MARKETING, counts(1, 0, 1))];
    assert_eq!(kept.counted(), counted);
}

/// 1 + admitted + dropped + held; a declined plan has no number.
#[test]
fn numbers_after_drops() {
    let mut kept = Kept::fresh(&small_shop());
    kept.replies(&[
        (ask(REPORT, &[]), held(1)),
        (drop_hold(REPORT, 1), settled(1)),
        (ask(REPORT, &[]), held(2)),
        (drop_hold(REPORT, 2), settled(2)),
        (ask(REPORT, &[]), held(3)),
        (ask(REPORT, &STATE), held(4)),
        (commit(REPORT, 3), settled(3)),
        (ask(REPORT, &[]), held(5)),
        (drop_hold(REPORT, 4), settled(4)),
        (ask(REPORT, &PRICE), declined(0b010)),
        (ask(REPORT, &[]), held(6)),
        (ask(MARKETING, &[]), held(1)),
        (ask(REPORT, &[]), held(7)),
    ]);
    let places: Vec<_> = kept.places().into_iter().map(|(i, of)| (i, of.1)).collect();
    assert_eq!(places, [(0, 5), (1, 6), (2, 1), (3, 7)]);
    assert_eq!(kept.counted(), [(REPORT, counts(1, 1, 3))]);
}

/// Two users hold plans under one number; each can settle his own alone.
#[test]
fn anothers_number() {
    let mut kept = Kept::fresh(&small_shop());
    kept.replies(&[
        (ask(REPORT, &STATE), held(1)),
        (ask(REPORT, &AVERAGE), held(2)),
        (commit(MARKETING, 1), refused(32)),
        (drop_hold(MARKETING, 1), refused(32)),
        (ask(MARKETING, &AVERAGE), held(1)),
        (drop_hold(MARKETING, 2), refused(32)),
        (commit(MARKETING, 1), settled(1)),
        (commit(MARKETING, 1), refused(32)),
    ]);
    assert_eq!(kept.words(), [(65, PRICE_BIT)]);
    kept.replies(&[
        (ask(MARKETING, &STATE), held(2)),
        (drop_hold(REPORT, 2), settled(2)),
        (commit(REPORT, 2), refused(32)),
        (commit(REPORT, 1), settled(1)),
    ]);
    assert_eq!(kept.words(), [(32, STATE_BIT), (65, PRICE_BIT)]);
    let state = vec![(0, STATE_BIT)];
    assert_eq!(kept.places(), [(2, (MARKETING, 2, state))]);
    let counted = [(REPORT, counts(1, 0, 1)), (MARKETING, counts(1, 0, 0))];
    assert_eq!(kept.counted(), counted);
}

/// What is committed or dropped is held no more, what was declined or never asked for was never held, and neither
/// is 0.
#[test]
fn settled_twice() {
    let mut kept = Kept::fresh(&small_shop());
    kept.replies(&[
        (commit(REPORT, 1), refused(32)),
        (commit(REPORT, 0), refused(32)),
        (drop_hold(REPORT, 0), refused(32)),
        (ask(REPORT, &STATE), held(1)),
        (commit(REPORT, 2), refused(32)),
        (commit(REPORT, 1), settled(1)),
        (commit(REPORT, 1), refused(32)),
        (drop_hold(REPORT, 1), refused(32)),
        (ask(REPORT, &PRICE), declined(0b111)),
        (commit(REPORT, 2), refused(32)),
        (commit(REPORT, 0), refused(32)),
        (ask(REPORT, &AVERAGE), held(2)),
        (drop_hold(REPORT, 2), settled(2)),
        (drop_hold(REPORT, 2), refused(32)),
        (commit(REPORT, 2), refused(32)),
    ]);
    assert_eq!(kept.words(), [(32, STATE_BIT)]);
    assert_eq!(kept.counted(), [(REPORT, counts(1, 1, 1))]);
    assert_eq!(kept.places(), []);
}

/// A place keeps the accesses of its plan alone, whatever its user has and holds.
#[test]
fn accesses_as_asked() {
    let mut shop = small_shop();
    shop.rules.truncate(1);
    let mut kept = Kept::fresh(&shop);
    kept.replies(&[
        (ask(REPORT, &AVERAGE), held(1)),
        (commit(REPORT, 1), settled(1)),
        (ask(REPORT, &STATE), held(2)),
        (ask(REPORT, &SUM), held(3)),
        (ask(REPORT, &BY_PRICE), held(4)),
        (ask(REPORT, &AVERAGE), held(5)),
        (ask(REPORT, &[]), held(6)),
    ]);
    let at = |word: usize| vec![(word, PRICE_BIT)];
    let places = [
        (0, (REPORT, 2, vec![(0, STATE_BIT)])),
        (1, (REPORT, 3, at(2))),
        (2, (REPORT, 4, at(16))),
        (3, (REPORT, 5, at(1))),
        (4, (REPORT, 6, vec![])),
    ];
    assert_eq!(kept.places(), places);
    assert_eq!(kept.words(), [(33, PRICE_BIT)]);
    kept.replies(&[
        (commit(REPORT, 3), settled(3)),
        (ask(REPORT, &PRICE), declined(1)),
        (drop_hold(REPORT, 2), settled(2)),
        (ask(REPORT, &PRICE), held(7)),
        (ask(REPORT, &STATE), declined(1)),
        (commit(REPORT, 5), settled(5)),
        (commit(REPORT, 4), settled(4)),
    ]);
    let words = [(33, PRICE_BIT), (34, PRICE_BIT), (48, PRICE_BIT)];
    assert_eq!(kept.words(), words);
    let places = [(0, (REPORT, 7, at(0))), (4, (REPORT, 6, vec![]))];
    assert_eq!(kept.places(), places);
    assert_eq!(kept.counted(), [(REPORT, counts(4, 2, 1))]);
}
