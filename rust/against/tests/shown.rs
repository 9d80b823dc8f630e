//! Which plan Idle shows (document 02, N2), on books whose answers were worked out by hand, each
//! beside its book.
//!
//! The small shop, but Address owns an operation 3, truncate, for which function 3 stands: users 1
//! Report and 2 Marketing; leaves 2 State and 3 City, which support truncate, and 4 Price, which
//! supports 1 avg and 2 sum. Columns 0, 1 and 2 carry them. Rule 0 is asked about, and forbids.

use against::engine::by_name;
use books::draft::{Draft, Rule, ACCESS, PROJECTION};
use books::named::small_shop;
use books::shop::{rule, ADDRESS, ANALYST, AVG, CITY, PRICE, REPORT, STATE};

/// The mask of operation 3.
const TRUNCATE: u16 = 1 << 3;

/// Every engine shows this user and this plan for rule 0, and leaves the rest of the buffer.
fn shows(rules: &[Rule], user: u32, plan: &[[u8; 4]]) {
    let mut shop = Draft {
        rules: rules.to_vec(),
        ..small_shop()
    };
    shop.data[1].1 = TRUNCATE;
    shop.functions.push(3);
    let mut wanted = plan.concat();
    wanted.resize(36, 9);
    for engine in ["second", "naive", "engine"]
        .into_iter()
        .filter_map(by_name)
    {
        let mut buffer = [9; 36];
        let said = engine.idle(&shop.bytes(), 0, &mut buffer);
        let rows = plan.len() as u32;
        assert_eq!(said, Some(Ok(Some((user, rows)))), "{}", engine.name());
        assert_eq!(buffer[..], wanted, "{}", engine.name());
    }
}

/// A state must be truncated, by rule 1. The state truncated and put out comes first in document
/// 01's order, but the city put out needs no function.
#[test]
fn a_higher_leaf_without_a_function() {
    let rules = [
        rule(ANALYST, &[(ACCESS, ADDRESS)], &[]),
        rule(ANALYST, &[(ACCESS, STATE)], &[&[TRUNCATE]]),
    ];
    shows(&rules, 1, &[[1, 1, 0, 0], [4, 0, 0, 0]]);
}

/// A price put out must be averaged, by rule 1. As a condition it is left raw.
#[test]
fn a_condition_without_a_function() {
    let rules = [
        rule(ANALYST, &[(ACCESS, PRICE)], &[]),
        rule(ANALYST, &[(PROJECTION, PRICE)], &[&[AVG]]),
    ];
    shows(&rules, 1, &[[1, 2, 0, 0], [5, 0, 0, 0]]);
}

/// "Among choices for the same user": Report must average a price and is shown, though Marketing
/// breaks rule 0 alone without a function.
#[test]
fn the_lower_user_with_a_function() {
    let rules = [
        rule(ANALYST, &[(ACCESS, PRICE)], &[]),
        rule(REPORT, &[(ACCESS, PRICE)], &[&[AVG]]),
    ];
    shows(&rules, 1, &[[1, 2, 0, 0], [2, 1, 0, 255], [4, 1, 0, 0]]);
}

/// "Equal ones fall back to document 01's order": by rule 1 the address is truncated or the price
/// averaged. One function is needed; the state comes raw before it comes truncated.
#[test]
fn the_first_of_equal_ones() {
    let both = [(ACCESS, ADDRESS), (ACCESS, PRICE)];
    let rules = [
        rule(ANALYST, &both, &[]),
        rule(ANALYST, &both, &[&[TRUNCATE, 0], &[0, AVG]]),
    ];
    let state = [[1, 0, 0, 0], [4, 0, 0, 0]];
    let average = [[1, 2, 0, 0], [2, 1, 2, 255], [4, 3, 0, 0]];
    shows(&rules, 1, &[&state[..], &average].concat());
}

/// A raw state, which comes first, needs a truncated city by rule 1 and an averaged price by rule
/// 2: two functions. A truncated state needs neither.
#[test]
fn one_function_before_two() {
    let [state, city, price] = [STATE, CITY, PRICE].map(|leaf| (ACCESS, leaf));
    let rules = [
        rule(ANALYST, &[state, city, price], &[]),
        rule(ANALYST, &[state, city], &[&[TRUNCATE, 0], &[0, TRUNCATE]]),
        rule(ANALYST, &[state, price], &[&[TRUNCATE, 0], &[0, AVG]]),
    ];
    let truncated = [[1, 0, 0, 0], [2, 3, 0, 255], [4, 1, 0, 0]];
    let raw = [[1, 1, 0, 0], [4, 3, 0, 0], [1, 2, 0, 0], [4, 5, 0, 0]];
    shows(&rules, 1, &[&truncated[..], &raw].concat());
}
