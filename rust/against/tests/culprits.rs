//! Culprits on books whose answers were worked out by hand from documents 01 and 02, each beside its
//! book.
//!
//! The small shop throughout: users 1 Report and 2 Marketing; leaves 2 State and 3 City under 1
//! Address, and 4 Price, which supports 1 avg and 2 sum. A price is had raw, under avg or under sum, and
//! no rule here takes a raw one.

mod by_hand;

use books::draft::{Draft, Rule, ACCESS, CONDITION, PROJECTION};
use books::named::{opposed_shop, small_shop};
use books::shop::{rule, ADDRESS, ANALYST, AVG, CITY, MARKETING, PRICE, REPORT, STATE, SUM};
use by_hand::{each_answers, refused, shop_of, Answer};

/// A rule that asks for these operations of every price.
fn price(user: u8, operations: u16) -> Rule {
    rule(user, &[(ACCESS, PRICE)], &[&[operations]])
}

/// The value of a blocked rule: 2 to the power of each rule that closes its data, itself among them.
fn few(rules: &[u32]) -> Answer {
    Ok(rules.iter().map(|&r| 2u32.pow(r)).sum())
}

const UNBLOCKED: Answer = Ok(0);

/// Every engine answers so for rules 0, 1 and so on.
fn answers(draft: &Draft, wanted: &[Answer]) {
    each_answers(draft, wanted, |engine, book, rule| {
        engine.culprits(book, rule)
    });
}

/// Rule 3, by which Report may have a price as a sum alone, opposes rules 1 and 2, which ask for avg.
/// Rule 0 takes both operations: without rule 3 avg opens, without rule 1 sum does once rule 2 is gone.
/// Rules 1 and 2 need rule 3 alone. Rule 3 needs rule 1, as its data have no address for rules 0 and 2.
#[test]
fn the_owners_own_case() {
    let all = [few(&[0, 1, 3]), few(&[1, 3]), few(&[2, 3]), few(&[1, 3])];
    answers(&opposed_shop(), &all);
    answers(&opposed_shop(), &[Ok(11), Ok(10), Ok(12), Ok(10)]);
    answers(&opposed_shop().with_rules(&[0]), &[UNBLOCKED, refused(24)]);
    let none = [UNBLOCKED, UNBLOCKED, UNBLOCKED, refused(24)];
    answers(&small_shop(), &none);
}

/// No function has avg. Rules 1 and 2 ask for it, and each closes its data alone: "The mask may be
/// empty." Rule 0 would take sum, and is closed by rule 1 as well as by rule 2: rule 2 is dropped first.
#[test]
fn an_empty_mask() {
    let mut shop = small_shop();
    shop.functions = vec![0, 2];
    answers(&shop, &[few(&[0, 1]), few(&[1]), few(&[2])]);
    let first = shop.with_rules(&[0, 2]);
    answers(&first, &[few(&[0, 1]), few(&[1])]);
}

/// Rules 1 and 2 ask for the same. Beside rule 0 either would do, and the lower number stays; where one
/// of them asks, the other is not needed.
#[test]
fn either_would_do() {
    let rules = [
        price(ANALYST, AVG),
        price(ANALYST, SUM),
        price(ANALYST, SUM),
    ];
    answers(
        &shop_of(&rules),
        &[few(&[0, 1]), few(&[0, 1]), few(&[0, 2])],
    );
}

/// A price supports a third operation. Rules 0 to 2 each leave out another one of the three, rule 3 takes
/// all: it needs the other three together, and each of them the other two.
#[test]
fn three_together() {
    let masks = [0b0110, 0b1100, 0b1010, 0b1110];
    let mut shop = shop_of(&masks.map(|mask| price(ANALYST, mask)));
    shop.data[4].1 = 0b1110;
    shop.functions = vec![0, 1, 2, 3];
    let three = few(&[0, 1, 2]);
    answers(&shop, &[three, three, three, few(&[0, 1, 2, 3])]);
    answers(&shop.with_rules(&[3, 0, 1]), &[UNBLOCKED; 3]);
}

/// Two rules ask for sum, rule 1 of Marketing and rule 2 of Report. Report comes first for rule 0, and
/// rule 1 does not cover him; rule 1 itself is about Marketing, whom rule 2 does not cover.
#[test]
fn rules_that_do_not_cover_the_user() {
    let rules = [
        price(ANALYST, AVG),
        price(MARKETING, SUM),
        price(REPORT, SUM),
    ];
    answers(
        &shop_of(&rules),
        &[few(&[0, 2]), few(&[0, 1]), few(&[0, 2])],
    );
    let others = [rules[0].clone(), rules[2].clone(), rules[1].clone()];
    answers(
        &shop_of(&others),
        &[few(&[0, 1]), few(&[0, 1]), few(&[0, 2])],
    );
}

/// Rule 3 forbids Report to put out a city, and closes rules 0 and 2 there. Rule 1 has no city; rule 3 is
/// refused, and there is no rule 4.
#[test]
fn a_rule_that_forbids() {
    let mut shop = small_shop();
    shop.rules.push(rule(REPORT, &[(PROJECTION, CITY)], &[]));
    let all = [
        few(&[0, 3]),
        UNBLOCKED,
        few(&[2, 3]),
        refused(26),
        refused(24),
    ];
    answers(&shop, &all);
}

/// Rule 0 takes both operations. Rules 1 and 2 close its data together, and so does the rule that forbids
/// alone. What stands last is dropped first, though fewer rules would be left otherwise.
#[test]
fn the_order_decides_not_the_count() {
    let [any, avg, sum] = [AVG | SUM, AVG, SUM].map(|mask| price(ANALYST, mask));
    let forbid = rule(ANALYST, &[(ACCESS, PRICE)], &[]);
    let last = shop_of(&[any, avg, sum, forbid]);
    let opposed = few(&[1, 2]);
    answers(&last, &[few(&[0, 1, 2]), opposed, opposed, refused(26)]);
    let first = last.with_rules(&[0, 3, 1, 2]);
    answers(
        &first,
        &[few(&[0, 1]), refused(26), few(&[1, 2]), few(&[1, 3])],
    );
}

/// Rules 1 and 2 forbid one leaf each of rule 0's. Its first association is about State, which rule 1
/// closes; where no column carries State it is about City, which rule 2 closes.
#[test]
fn the_first_association() {
    let rules = [
        rule(ANALYST, &[(ACCESS, ADDRESS)], &[&[0]]),
        rule(ANALYST, &[(ACCESS, STATE)], &[]),
        rule(ANALYST, &[(ACCESS, CITY)], &[]),
    ];
    let mut shop = shop_of(&rules);
    answers(&shop, &[few(&[0, 1]), refused(26), refused(26)]);
    shop.columns[0] = 255;
    answers(&shop, &[few(&[0, 2])]);
}

/// Marketing may have no address at all, by rule 1; Report may not decide by City, by rule 2. Report comes
/// first, with the last association of all.
#[test]
fn the_first_user() {
    let rules = [
        rule(ANALYST, &[(ACCESS, ADDRESS)], &[&[0]]),
        rule(MARKETING, &[(ACCESS, ADDRESS)], &[]),
        rule(REPORT, &[(CONDITION, CITY)], &[]),
    ];
    answers(&shop_of(&rules), &[few(&[0, 2])]);
}

/// Prices as conditions need sum by rule 0, all prices avg by rule 1, prices put out anything by rule 2:
/// it is not about conditions.
#[test]
fn under_one_action() {
    let rules = [
        rule(ANALYST, &[(CONDITION, PRICE)], &[&[SUM]]),
        price(ANALYST, AVG),
        rule(ANALYST, &[(PROJECTION, PRICE)], &[&[AVG | SUM]]),
    ];
    answers(&shop_of(&rules), &[few(&[0, 1]), few(&[0, 1]), UNBLOCKED]);
}

/// City supports avg and sum as Price does. Rule 0 wants two like operations, rule 1 two unlike ones: no
/// pair is both. Rule 2 asks for avg of every price: beside the other two it is not needed, and its own
/// data have no city.
#[test]
fn operations_that_close_as_a_pair() {
    let both = [(PROJECTION, CITY), (PROJECTION, PRICE)];
    let rules = [
        rule(ANALYST, &both, &[&[AVG, AVG], &[SUM, SUM]]),
        rule(ANALYST, &both, &[&[AVG, SUM], &[SUM, AVG]]),
        price(ANALYST, AVG),
    ];
    let mut shop = shop_of(&rules);
    shop.data[3].1 = AVG | SUM;
    answers(&shop, &[few(&[0, 1]), few(&[0, 1]), UNBLOCKED]);
}
