//! What is admitted and counted, each plan committed as soon as it is held (document 02, N3 and N8).

use crate::kept::*;
use books::named::small_shop;
use second::Holds;

/// Marketing's price breaks rule 1 by itself; after the state it breaks rule 0 too.
#[test]
fn state_on_monday_and_price_on_tuesday() {
    let mut kept = Kept::fresh(&small_shop());
    assert_eq!(kept.admit(MARKETING, &PRICE), Ok(0b010));
    assert_eq!(kept.admit(MARKETING, &STATE), Ok(0));
    assert_eq!(kept.admit(MARKETING, &PRICE), Ok(0b011));
    assert_eq!(kept.counted(), [(MARKETING, counts(1, 2, 0))]);
    assert_eq!(kept.words(), [(32 * 2, STATE_BIT)]);
    assert_eq!(kept.holds, Holds::default());
}

/// Without rule 1 either may be had alone, in whatever order, and never both.
#[test]
fn one_association() {
    for [monday, tuesday] in [[STATE, PRICE], [PRICE, STATE]] {
        let mut kept = Kept::fresh(&small_shop().with_rules(&[0, 2]));
        assert_eq!(second::judge(&kept.book, REPORT, &tuesday), Ok(0));
        assert_eq!(kept.admit(REPORT, &monday), Ok(0));
        let after_monday = kept.words();
        assert_eq!(kept.admit(REPORT, &tuesday), Ok(0b11));
        assert_eq!(kept.admit(REPORT, &tuesday), Ok(0b11));
        assert_eq!(kept.admit(MARKETING, &tuesday), Ok(0));
        assert_eq!(kept.admit(REPORT, &monday), Ok(0));
        assert_eq!(kept.words()[..1], after_monday);
        let counted = [(REPORT, counts(2, 2, 0)), (MARKETING, counts(1, 0, 0))];
        assert_eq!(kept.counted(), counted);
    }
}

/// Bit d of word 32 × user + 16 × s + k.
#[test]
fn what_is_admitted() {
    let mut shop = small_shop();
    shop.rules.truncate(1);
    let mut kept = Kept::fresh(&shop);
    for plan in [&STATE[..], &AVERAGE, &BY_PRICE, &[], &SUM, &STATE] {
        assert_eq!(kept.admit(REPORT, plan), Ok(0));
    }
    let words = [
        (32, STATE_BIT),
        (33, PRICE_BIT),
        (34, PRICE_BIT),
        (48, PRICE_BIT),
    ];
    assert_eq!(kept.words(), words);
    assert_eq!(kept.admit(REPORT, &PRICE), Ok(1));
    assert_eq!(kept.words(), words);
    assert_eq!(kept.counted(), [(REPORT, counts(6, 1, 0))]);
}

/// Document 02, N5: of avg(concat(State, Price)) both are raw, where no rule stops it; of
/// sum(concat(avg(Price), State)) the price is averaged.
#[test]
fn what_is_admitted_of_a_mix() {
    let above = [1, 0, 0, 0, 1, 2, 0, 0, 2, 0, 0, 1, 2, 1, 2, 255, 4, 3, 0, 0];
    let below = [
        1, 2, 0, 0, 2, 1, 0, 255, 1, 0, 0, 0, 2, 0, 1, 2, 2, 2, 3, 255, 4, 4, 0, 0,
    ];
    let mut kept = Kept::fresh(&small_shop());
    assert_eq!(kept.admit(MARKETING, &above), Ok(0b011));
    assert_eq!(kept.admit(MARKETING, &below), Ok(0));
    assert_eq!(kept.words(), [(64, STATE_BIT), (65, PRICE_BIT)]);
    let mut kept = Kept::fresh(&small_shop().with_rules(&[]));
    kept.replies(&[(ask(MARKETING, &above), held(1))]);
    let words = vec![(0, STATE_BIT | PRICE_BIT)];
    assert_eq!(kept.places(), [(0, (MARKETING, 1, words))]);
    kept.replies(&[(commit(MARKETING, 1), settled(1))]);
    assert_eq!(kept.words(), [(64, STATE_BIT | PRICE_BIT)]);
}

/// A ledger that no list reaches is joined and judged as it is.
#[test]
fn any_ledger() {
    let mut kept = Kept::fresh(&small_shop());
    // Bits at no leaf, and at no category.
    kept.ledger = vec![0b11 | 1 << 63; 1_024];
    assert_eq!(kept.admit(REPORT, &STATE), Ok(0));
    let mut wanted = vec![0b11 | 1 << 63; 1_024];
    wanted[32] |= STATE_BIT;
    assert_eq!(kept.ledger, wanted);
    // A price under an operation that it does not support: even the empty plan is declined.
    kept.ledger[32 + 16 + 9] |= PRICE_BIT;
    wanted = kept.ledger.clone();
    assert_eq!(kept.admit(REPORT, &[]), Ok(0b010));
    assert_eq!(kept.admit(MARKETING, &[]), Ok(0));
    assert_eq!(kept.ledger, wanted);
    // A city and a sum, which another book let through.
    let mut kept = Kept::fresh(&small_shop());
    (kept.ledger[32], kept.ledger[34]) = (1 << 3, PRICE_BIT);
    assert_eq!(kept.admit(REPORT, &AVERAGE), Ok(0b110));
    assert_eq!(kept.counted(), [(REPORT, counts(0, 1, 0))]);
}
