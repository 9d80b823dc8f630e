//! Records that no list of calls from fresh reaches: "the steps are the same, a count at its top value stays there,
//! and the lowest place with that user and number is meant" (document 02, N10).

use crate::kept::*;
use books::named::small_shop;
use second::Place;

const TOP: u32 = u32::MAX;

/// Two places of Report under 7, one of Marketing between them: first the lower one is meant, then the other.
#[test]
fn two_places_alike() {
    let state = place(REPORT, 7, &[(0, STATE_BIT)]);
    let average = place(REPORT, 7, &[(1, PRICE_BIT)]);
    let other = place(MARKETING, 7, &[(2, PRICE_BIT)]);
    let mut kept = Kept::fresh(&small_shop());
    (kept.holds.places[2], kept.holds.places[5]) = (state, average);
    kept.holds.places[3] = other;
    let mut dropped = kept.clone();
    kept.replies(&[(commit(REPORT, 7), settled(7))]);
    assert_eq!(kept.words(), [(32, STATE_BIT)]);
    assert_eq!(
        kept.holds.places[2..6],
        [Place::default(), other, Place::default(), average]
    );
    kept.replies(&[
        (commit(REPORT, 7), settled(7)),
        (commit(REPORT, 7), refused(32)),
    ]);
    assert_eq!(kept.words(), [(32, STATE_BIT), (33, PRICE_BIT)]);
    dropped.replies(&[(drop_hold(REPORT, 7), settled(7))]);
    assert_eq!(dropped.holds.places[2..4], [Place::default(), other]);
    dropped.replies(&[(commit(REPORT, 7), settled(7))]);
    assert_eq!(dropped.words(), [(33, PRICE_BIT)]);
    assert_eq!(dropped.counted(), [(REPORT, counts(1, 0, 1))]);
}

/// A new hold gets the number of one that is there: the new one is lower and is meant.
#[test]
fn a_new_hold_alike() {
    let mut kept = Kept::fresh(&small_shop());
    kept.holds.places[3] = place(REPORT, 2, &[(1, PRICE_BIT)]);
    kept.replies(&[
        (ask(REPORT, &STATE), held(2)),
        (commit(REPORT, 2), settled(2)),
    ]);
    assert_eq!(kept.words(), [(32, STATE_BIT)]);
    assert_eq!(kept.places(), [(3, (REPORT, 2, vec![(1, PRICE_BIT)]))]);
}

/// "a count at its top value stays there", and one below reaches it. The plan is admitted or forgotten all the same.
#[test]
fn counts_at_the_top() {
    for (before, after) in [(TOP - 1, TOP), (TOP, TOP)] {
        let mut kept = Kept::fresh(&small_shop());
        kept.holds.places[6] = place(REPORT, 5, &[(0, STATE_BIT)]);
        *kept.counts(REPORT) = counts(before, 3, before);
        let mut dropped = kept.clone();
        kept.replies(&[
            (commit(REPORT, 5), settled(5)),
            (ask(REPORT, &[]), refused(28)),
        ]);
        assert_eq!(kept.counted(), [(REPORT, counts(after, 3, before))]);
        assert_eq!(kept.words(), [(32, STATE_BIT)]);
        dropped.replies(&[
            (drop_hold(REPORT, 5), settled(5)),
            (ask(REPORT, &[]), refused(28)),
        ]);
        assert_eq!(dropped.counted(), [(REPORT, counts(before, 3, after))]);
        assert_eq!(dropped.words(), []);
        assert_eq!((kept.places(), dropped.places()), (vec![], vec![]));
    }
}

/// 31 counts them all; no call frees their places, as refusal 20 comes first. Seven of them leave one place.
#[test]
fn eight_holds_of_nobody() {
    for nobody in [0, 3, 31, 32, 256 + REPORT, TOP] {
        let mut kept = Kept::fresh(&small_shop());
        kept.holds = eight(nobody, 1);
        kept.replies(&[
            (ask(REPORT, &STATE), refused(31)),
            (ask(REPORT, &PRICE), refused(31)),
            (commit(REPORT, 1), refused(32)),
            (drop_hold(MARKETING, 8), refused(32)),
            (commit(nobody, 1), refused(20)),
            (drop_hold(nobody, 1), refused(20)),
        ]);
        kept.holds.places[4] = Place::default();
        kept.replies(&[
            (ask(REPORT, &PRICE), declined(0b010)),
            (ask(REPORT, &STATE), held(1)),
            (ask(MARKETING, &[]), refused(31)),
        ]);
        assert_eq!(kept.holds.places[4], place(REPORT, 1, &[(0, STATE_BIT)]));
    }
}

/// A place with number 0 is empty, whatever its user and its words: it is neither counted nor joined, 0 is not held,
/// and the next hold takes the lowest and leaves nothing of what was there.
#[test]
fn empty_places_with_something_in_them() {
    let garbage = place(REPORT, 0, &[(0, u64::MAX), (31, u64::MAX)]);
    let mut kept = Kept::fresh(&small_shop());
    kept.holds.places.fill(garbage);
    kept.replies(&[
        (commit(REPORT, 0), refused(32)),
        (drop_hold(REPORT, 0), refused(32)),
        (ask(REPORT, &STATE), held(1)),
        (ask(MARKETING, &AVERAGE), held(1)),
    ]);
    let mut places = [garbage; 8];
    places[0] = place(REPORT, 1, &[(0, STATE_BIT)]);
    places[1] = place(MARKETING, 1, &[(1, PRICE_BIT)]);
    assert_eq!(kept.holds.places, places);
    kept.replies(&[
        (drop_hold(REPORT, 1), settled(1)),
        (commit(MARKETING, 1), settled(1)),
    ]);
    places[..2].fill(Place::default());
    assert_eq!(kept.holds.places, places);
    assert_eq!(kept.words(), [(65, PRICE_BIT)]);
}

/// A number beyond what a new hold can get is matched as any other, and the next number has no regard to it.
#[test]
fn numbers_beyond_a_million() {
    for number in [1_000_000, 1_000_001, 1 << 31, TOP] {
        for settle in [commit, drop_hold] {
            let mut kept = Kept::fresh(&small_shop());
            kept.holds.places[1] = place(REPORT, number, &[]);
            kept.replies(&[
                (settle(REPORT, number - 1), refused(32)),
                (ask(REPORT, &STATE), held(2)),
                (settle(REPORT, number), settled(number)),
                (settle(REPORT, number), refused(32)),
            ]);
            assert_eq!(kept.places(), [(0, (REPORT, 2, vec![(0, STATE_BIT)]))]);
        }
    }
}

/// Held plans that break rules: even the empty plan is declined, for their user alone. "committing tests none".
#[test]
fn held_plans_that_break_rules() {
    let both = [(0, STATE_BIT | PRICE_BIT)];
    let mut kept = Kept::fresh(&small_shop());
    kept.holds.places[7] = place(REPORT, 9, &both);
    kept.replies(&[
        (ask(REPORT, &[]), declined(0b111)),
        (ask(MARKETING, &[]), held(1)),
        (commit(REPORT, 9), settled(9)),
        (ask(REPORT, &[]), declined(0b111)),
    ]);
    assert_eq!(kept.words(), [(32, STATE_BIT | PRICE_BIT)]);
    assert_eq!(kept.counted(), [(REPORT, counts(1, 2, 0))]);
    // Words and a held plan that break a rule together.
    let mut kept = Kept::fresh(&small_shop());
    kept.ledger[32] = STATE_BIT;
    kept.holds.places[7] = place(REPORT, 9, &[(2, PRICE_BIT)]);
    kept.replies(&[
        (ask(REPORT, &[]), declined(0b110)),
        (commit(REPORT, 9), settled(9)),
    ]);
    assert_eq!(kept.words(), [(32, STATE_BIT), (34, PRICE_BIT)]);
}

/// Bits at no leaf, at no category and under no supported operation are held and admitted as they are.
#[test]
fn any_words_in_a_place() {
    let mut kept = Kept::fresh(&small_shop());
    let words = [(0, 0b11 | 1 << 63), (15, u64::MAX - PRICE_BIT), (31, 1)];
    kept.holds.places[0] = place(MARKETING, 3, &words);
    kept.ledger[64] = 1 << 62;
    kept.replies(&[
        (ask(MARKETING, &STATE), held(2)),
        (commit(MARKETING, 3), settled(3)),
    ]);
    let wanted = [
        (64, 0b11 | 1 << 62 | 1 << 63),
        (79, u64::MAX - PRICE_BIT),
        (95, 1),
    ];
    assert_eq!(kept.words(), wanted);
}
