//! Blocked on books whose answers were worked out by hand from documents 01 and 02, each beside its
//! book.
//!
//! The small shop throughout: users 1 Report and 2 Marketing; leaves 2 State and 3 City under 1
//! Address, and 4 Price, which supports 1 avg and 2 sum. State and City support nothing, so they can be
//! had under operation 0 alone; Price under 0, avg and sum. Every rule of the shop is open: avg is taken
//! by rules 0, 1 and 2.

mod by_hand;

use books::draft::{Draft, Rule, ACCESS, CONDITION, PROJECTION};
use books::named::{opposed_shop, small_shop};
use books::shop::{rule, ADDRESS, ANALYST, AVG, CITY, MARKETING, PRICE, REPORT, STATE, SUM};
use by_hand::{each_answers, refused, shop_of, Answer};

/// The small shop with these rules after its own.
fn shop_and(rules: &[Rule]) -> Draft {
    let mut shop = small_shop();
    shop.rules.extend_from_slice(rules);
    shop
}

/// The value of a user and data: 128 + leaf for a projection, 192 + leaf for a condition.
fn closed(user: u32, data: &[(u8, u8)]) -> Answer {
    let mut value = user * 16_777_216;
    for (&(action, leaf), place) in data.iter().zip([1, 256, 65_536]) {
        let byte = 64 * (u32::from(action) + 1) + u32::from(leaf);
        value += place * byte;
    }
    Ok(value)
}

const OPEN: Answer = Ok(0);

/// Every engine answers so for rules 0, 1 and so on.
fn answers(draft: &Draft, wanted: &[Answer]) {
    each_answers(draft, wanted, |engine, book, rule| {
        engine.blocked(book, rule)
    });
}

/// "a rule that permits Price under avg, and another that needs sum": rule 3 is Report, access Price,
/// [{sum}]. For Report a price needs avg by rule 1 and sum by rule 3, and no operation is both; so
/// whatever holds a price is closed to user 1, who comes first. Of rules 0 and 2 State comes before
/// City, and both references are projections.
#[test]
fn the_owners_own_case() {
    let state_and_price = closed(1, &[(PROJECTION, STATE), (PROJECTION, PRICE)]);
    let price = closed(1, &[(PROJECTION, PRICE)]);
    assert_eq!(state_and_price, Ok(0x0100_8482));
    assert_eq!(price, Ok(0x0100_0084));
    let all = [state_and_price, price, state_and_price, price, refused(24)];
    answers(&opposed_shop(), &all);
    answers(&small_shop(), &[OPEN, OPEN, OPEN, refused(24)]);
}

/// The same for Marketing: Report may have every price under avg, so rules 0 and 1 are closed to user
/// 2 first, and rule 2, which is about Report, is open.
#[test]
fn for_one_user() {
    let sum = rule(MARKETING, &[(ACCESS, PRICE)], &[&[SUM]]);
    let both = closed(2, &[(PROJECTION, STATE), (PROJECTION, PRICE)]);
    let price = closed(2, &[(PROJECTION, PRICE)]);
    answers(&shop_and(&[sum]), &[both, price, OPEN, price]);
}

/// Prices as conditions need sum, all prices avg: a price put out is open by avg, and rules 0 and 2 are
/// about such alone. The condition is closed to user 1.
#[test]
fn under_one_action() {
    let sum = rule(ANALYST, &[(CONDITION, PRICE)], &[&[SUM]]);
    let price = closed(1, &[(CONDITION, PRICE)]);
    answers(&shop_and(&[sum]), &[OPEN, price, OPEN, price]);
}

/// Price supports a third operation. Rule 0 takes 1 and 2, rule 1 takes 2 and 3, rule 2 takes 1 and 3:
/// any two have one in common, the three have none, and none takes 0.
#[test]
fn by_three_rules_and_no_two() {
    let price = |mask: u16| rule(ANALYST, &[(ACCESS, PRICE)], &[&[mask]]);
    let mut shop = shop_of(&[price(0b0110), price(0b1100), price(0b1010)]);
    shop.data[4].1 = 0b1110;
    shop.functions = vec![0, 1, 2, 3];
    let first = closed(1, &[(PROJECTION, PRICE)]);
    answers(&shop, &[first; 3]);
    for two in [[0, 1], [0, 2], [1, 2]] {
        answers(&shop.with_rules(&two), &[OPEN; 2]);
    }
}

/// Rule 0 asks for avg of a price beside a state and a city, rule 1 for sum of any price. Rule 1 needs
/// no state: its own data are open by sum, as no state is chosen there. Rule 0 is closed at its first
/// association.
#[test]
fn three_references() {
    let three = [(ACCESS, STATE), (ACCESS, CITY), (ACCESS, PRICE)];
    let rules = [
        rule(ANALYST, &three, &[&[0, 0, AVG]]),
        rule(ANALYST, &[(ACCESS, PRICE)], &[&[SUM]]),
    ];
    let data = [(PROJECTION, STATE), (PROJECTION, CITY), (PROJECTION, PRICE)];
    let all = closed(1, &data);
    assert_eq!(all, Ok(0x0184_8382));
    answers(&shop_of(&rules), &[all, OPEN]);
    answers(&shop_of(&rules[..1]), &[OPEN]);
}

/// Rule 1 forbids State, so rule 0, which accepts any address, is closed at State. Where no column
/// carries State, its scope is City alone, and that is open.
#[test]
fn a_leaf_that_no_column_carries() {
    let rules = [
        rule(ANALYST, &[(ACCESS, ADDRESS)], &[&[0]]),
        rule(ANALYST, &[(ACCESS, STATE)], &[]),
    ];
    let mut shop = shop_of(&rules);
    answers(&shop, &[closed(1, &[(PROJECTION, STATE)]), refused(26)]);
    shop.columns[0] = 255;
    answers(&shop, &[OPEN, refused(26)]);
}

/// Without a column for Price the rules of `opposed_shop` have no association, and are open.
#[test]
fn no_association() {
    let mut shop = opposed_shop();
    shop.columns = vec![2, 3, 255, 255];
    answers(&shop, &[OPEN; 4]);
}

/// A rule that covers no user is open, whatever it says: rule 0 asks for avg, which no function has.
#[test]
fn no_user() {
    let mut avg = rule(ANALYST, &[(ACCESS, PRICE)], &[&[AVG]]);
    avg.excluded = vec![REPORT, MARKETING];
    let mut shop = shop_of(&[avg]);
    shop.functions = vec![0, 2];
    answers(&shop, &[OPEN]);
    shop.rules[0].excluded = vec![REPORT];
    answers(&shop, &[closed(2, &[(PROJECTION, PRICE)])]);
}

/// No function has avg. Rule 1 asks for it, and closes its own data; rule 0, which would take sum, is
/// closed by rule 1, and open without it.
#[test]
fn an_operation_that_no_function_has() {
    let mut shop = small_shop();
    shop.functions = vec![0, 2];
    let both = closed(1, &[(PROJECTION, STATE), (PROJECTION, PRICE)]);
    let price = closed(1, &[(PROJECTION, PRICE)]);
    answers(&shop, &[both, price, both]);
    answers(&shop.with_rules(&[0]), &[OPEN]);
    answers(&shop.with_rules(&[1]), &[price]);
}

/// Rule 3 forbids Report to put out a city. Rules 0 and 2 are open at State, closed at City; rule 1 has
/// no city; rule 3 itself is refused, and there is no rule 4.
#[test]
fn a_rule_that_forbids() {
    let forbid = rule(REPORT, &[(PROJECTION, CITY)], &[]);
    let city = closed(1, &[(PROJECTION, CITY), (PROJECTION, PRICE)]);
    let all = [city, OPEN, city, refused(26), refused(24)];
    answers(&shop_and(&[forbid]), &all);
}

/// City may not be put out, State may not decide. Both are closed, and the projection comes first
/// though its leaf is the higher one.
#[test]
fn action_before_leaf() {
    let rules = [
        rule(ANALYST, &[(ACCESS, ADDRESS)], &[&[0]]),
        rule(ANALYST, &[(PROJECTION, CITY)], &[]),
        rule(ANALYST, &[(CONDITION, STATE)], &[]),
    ];
    answers(&shop_of(&rules), &[closed(1, &[(PROJECTION, CITY)])]);
}

/// Marketing may have no address at all, Report may not decide by City: user 1 comes first, with the
/// last association of all.
#[test]
fn user_before_action() {
    let rules = [
        rule(ANALYST, &[(ACCESS, ADDRESS)], &[&[0]]),
        rule(MARKETING, &[(ACCESS, ADDRESS)], &[]),
        rule(REPORT, &[(CONDITION, CITY)], &[]),
    ];
    answers(&shop_of(&rules), &[closed(1, &[(CONDITION, CITY)])]);
}

/// A price may not be put out beside a state that decides, nor decide beside a state that is put out.
/// Rule 0 names State first, so the state that is put out comes first; rule 1 names Price first.
#[test]
fn first_reference_before_second() {
    let rules = [
        rule(ANALYST, &[(ACCESS, STATE), (ACCESS, PRICE)], &[&[0, 0]]),
        rule(ANALYST, &[(ACCESS, PRICE), (ACCESS, STATE)], &[&[0, 0]]),
        rule(ANALYST, &[(CONDITION, STATE), (PROJECTION, PRICE)], &[]),
        rule(ANALYST, &[(PROJECTION, STATE), (CONDITION, PRICE)], &[]),
    ];
    let state_first = closed(1, &[(PROJECTION, STATE), (CONDITION, PRICE)]);
    let price_first = closed(1, &[(PROJECTION, PRICE), (CONDITION, STATE)]);
    answers(&shop_of(&rules), &[state_first, price_first]);
}

/// City supports avg and sum as Price does. Rule 0 wants two like operations, rule 1 two unlike ones:
/// each operation alone is taken by both, and no pair is.
#[test]
fn operations_that_close_as_a_pair() {
    let both = [(PROJECTION, CITY), (PROJECTION, PRICE)];
    let turned = [(PROJECTION, PRICE), (PROJECTION, CITY)];
    let rules = [
        rule(ANALYST, &both, &[&[AVG, AVG], &[SUM, SUM]]),
        rule(ANALYST, &turned, &[&[AVG, SUM], &[SUM, AVG]]),
    ];
    let mut shop = shop_of(&rules);
    shop.data[3].1 = AVG | SUM;
    answers(&shop, &[closed(1, &both), closed(1, &turned)]);
    shop.rules[1].restrictions.push([SUM, SUM, 0]);
    answers(&shop, &[OPEN, OPEN]);
}

/// A restriction without masks accepts everything; so the rule itself never closes its data.
#[test]
fn a_rule_that_accepts_everything() {
    let any = rule(ANALYST, &[(ACCESS, PRICE)], &[&[AVG], &[0]]);
    let mut shop = shop_of(&[any]);
    shop.functions = vec![];
    answers(&shop, &[OPEN]);
}
