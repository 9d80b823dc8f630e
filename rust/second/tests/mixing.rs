//! Document 02's N5 on the small shop, worked out by hand: "On a path, an Apply with two rows
//! doesn't count as an operation, and nothing above it does. An Apply with one row, and Choose, are
//! as before."

use books::named::small_shop;
use second::access::{Access, Action};
use second::{path, plan, reading};
use std::collections::BTreeSet;

const COLUMN_STATE: [u8; 4] = [1, 0, 0, 0];
const COLUMN_CITY: [u8; 4] = [1, 1, 0, 0];
const COLUMN_PRICE: [u8; 4] = [1, 2, 0, 0];
const CONCAT: u8 = 0;
const AVERAGE: u8 = 1;
const TOTAL: u8 = 2;

const STATE: usize = 2;
const CITY: usize = 3;
const PRICE: usize = 4;
const RAW: u8 = 0;
const AVG: u8 = 1;
const SUM: u8 = 2;

fn one(function: u8, row: u8) -> [u8; 4] {
    [2, function, row, 255]
}

fn two(function: u8, rows: [u8; 2]) -> [u8; 4] {
    [2, function, rows[0], rows[1]]
}

fn choose(decides: u8, between: [u8; 2]) -> [u8; 4] {
    [3, decides, between[0], between[1]]
}

fn output(row: u8) -> [u8; 4] {
    [4, row, 0, 0]
}

fn projection(leaf: usize, operation: u8) -> Access {
    Access {
        action: Action::Projection,
        leaf,
        operation,
    }
}

fn condition(leaf: usize, operation: u8) -> Access {
    Access {
        action: Action::Condition,
        leaf,
        operation,
    }
}

/// These rows give these accesses and no others, path by path and row by row.
fn gives(rows: &[[u8; 4]], wanted: &[Access]) {
    let book = reading::read(&small_shop().bytes()).expect("it is accepted");
    let rows = plan::read(&rows.concat(), &book).expect("it is accepted");
    let wanted: BTreeSet<Access> = wanted.iter().copied().collect();
    assert_eq!(path::accesses_by_paths(&book, &rows), wanted);
    assert_eq!(path::accesses_by_rows(&book, &rows), wanted);
}

/// avg(concat(State, Price)): "an average over concatenated columns protects neither".
#[test]
fn nothing_above_a_mix_counts() {
    let mixed = [COLUMN_STATE, COLUMN_PRICE, two(CONCAT, [0, 1])];
    let raw = [projection(STATE, RAW), projection(PRICE, RAW)];
    gives(&[&mixed[..], &[output(2)]].concat(), &raw);
    gives(&[&mixed[..], &[one(AVERAGE, 2), output(3)]].concat(), &raw);
    let higher = [one(AVERAGE, 2), one(TOTAL, 3), output(4)];
    gives(&[&mixed[..], &higher].concat(), &raw);
}

/// concat(avg(Price), State), and sum above it: the average still counts.
#[test]
fn what_counts_below_a_mix_still_counts() {
    let rows = [
        COLUMN_PRICE,
        one(AVERAGE, 0),
        COLUMN_STATE,
        two(CONCAT, [1, 2]),
        output(3),
        one(TOTAL, 3),
        output(5),
    ];
    gives(&rows, &[projection(STATE, RAW), projection(PRICE, AVG)]);
}

/// sum(concat(City, concat(avg(Price), State))): a second mix changes nothing.
#[test]
fn a_mix_above_a_mix() {
    let rows = [
        COLUMN_PRICE,
        one(AVERAGE, 0),
        COLUMN_STATE,
        two(CONCAT, [1, 2]),
        COLUMN_CITY,
        two(CONCAT, [4, 3]),
        one(TOTAL, 5),
        output(6),
    ];
    let all = [
        projection(STATE, RAW),
        projection(CITY, RAW),
        projection(PRICE, AVG),
    ];
    gives(&rows, &all);
}

/// sum(avg(concat(Price))): with one row each, concat is passed over and avg counts, as before.
#[test]
fn one_row_is_as_before() {
    let rows = [
        COLUMN_PRICE,
        one(CONCAT, 0),
        one(AVERAGE, 1),
        one(TOTAL, 2),
        output(3),
    ];
    gives(&rows, &[projection(PRICE, AVG)]);
}

/// avg(Price, State): the function's own operation does not count either.
#[test]
fn a_mix_by_an_operation() {
    let rows = [COLUMN_PRICE, COLUMN_STATE, two(AVERAGE, [0, 1]), output(2)];
    gives(&rows, &[projection(STATE, RAW), projection(PRICE, RAW)]);
}

/// avg(Price, Price): b = c, and still two rows.
#[test]
fn the_same_row_twice() {
    let rows = [COLUMN_PRICE, two(AVERAGE, [0, 0]), output(1)];
    gives(&rows, &[projection(PRICE, RAW)]);
    let rows = [
        COLUMN_PRICE,
        two(CONCAT, [0, 0]),
        one(AVERAGE, 1),
        output(2),
    ];
    gives(&rows, &[projection(PRICE, RAW)]);
    let rows = [COLUMN_PRICE, one(TOTAL, 0), two(AVERAGE, [1, 1]), output(2)];
    gives(&rows, &[projection(PRICE, SUM)]);
}

/// One label by two ways to the same mix: sum(concat(avg(Price), Price)).
#[test]
fn a_label_on_both_sides() {
    let rows = [
        COLUMN_PRICE,
        one(AVERAGE, 0),
        two(CONCAT, [1, 0]),
        one(TOTAL, 2),
        output(3),
    ];
    gives(&rows, &[projection(PRICE, RAW), projection(PRICE, AVG)]);
}

/// An average above a Choose between concat(State, Price) and itself, decided by City.
#[test]
fn a_choose_above_a_mix() {
    let rows = [
        COLUMN_STATE,
        COLUMN_PRICE,
        two(CONCAT, [0, 1]),
        COLUMN_CITY,
        choose(3, [2, 2]),
        one(AVERAGE, 4),
        output(5),
    ];
    let all = [
        projection(STATE, RAW),
        projection(PRICE, RAW),
        condition(CITY, RAW),
    ];
    gives(&rows, &all);
}

/// An average above a Choose between a mixed and an unmixed price: Choose itself mixes nothing.
#[test]
fn a_choose_beside_a_mix() {
    let rows = [
        COLUMN_STATE,
        COLUMN_PRICE,
        two(CONCAT, [0, 1]),
        COLUMN_CITY,
        choose(3, [2, 1]),
        one(AVERAGE, 4),
        output(5),
    ];
    let all = [
        projection(STATE, RAW),
        projection(PRICE, RAW),
        projection(PRICE, AVG),
        condition(CITY, RAW),
    ];
    gives(&rows, &all);
}

/// As a of Choose, avg(Price, State) and avg(concat(Price, State)) give both columns raw, and
/// concat(avg(Price), State) gives the price averaged.
#[test]
fn a_choose_decided_by_a_mix() {
    let raw = [condition(STATE, RAW), condition(PRICE, RAW)];
    let rows = [
        COLUMN_PRICE,
        COLUMN_STATE,
        two(AVERAGE, [0, 1]),
        choose(2, [1, 1]),
    ];
    gives(&rows, &raw);
    let rows = [
        COLUMN_PRICE,
        COLUMN_STATE,
        two(CONCAT, [0, 1]),
        one(AVERAGE, 2),
        choose(3, [1, 1]),
    ];
    gives(&rows, &raw);
    let rows = [
        COLUMN_PRICE,
        one(AVERAGE, 0),
        COLUMN_STATE,
        two(CONCAT, [1, 2]),
        choose(3, [2, 2]),
    ];
    gives(&rows, &[condition(STATE, RAW), condition(PRICE, AVG)]);
}
