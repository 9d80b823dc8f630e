//! The shown plan of a choice.

use crate::access::{Access, Action};
use crate::book::Book;
use crate::plan::Row;

/// "The shown plan takes, for each reference in turn, a Column row (lowest column with that label),
/// an Apply row if the operation isn't 0 (lowest function with it, c 255), and an Output row for
/// projection or a Condition row for condition. The Apply row (in b) and the last row (in a) name
/// the row just before. There are no other rows."
pub fn plan(book: &Book, choice: &[Access]) -> Vec<Row> {
    let mut rows = Vec::new();
    for access in choice {
        let column = lowest(&book.columns, &Some(access.leaf));
        rows.push(Row::Column(column));
        if access.operation != 0 {
            let function = lowest(&book.functions, &access.operation);
            rows.push(Row::Apply(function, rows.len() - 1, None));
        }
        let before = rows.len() - 1;
        rows.push(match access.action {
            Action::Projection => Row::Output(before),
            Action::Condition => Row::Condition(before),
        });
    }
    rows
}

fn lowest<T: PartialEq>(all: &[T], wanted: &T) -> usize {
    let found = all.iter().position(|one| one == wanted);
    found.expect("the access can be had")
}

/// The rows as bytes: "kind, a, b, c".
pub fn bytes(rows: &[Row]) -> Vec<u8> {
    let byte = |n: usize| u8::try_from(n).expect("columns, functions and rows are below 256");
    rows.iter()
        .flat_map(|row| match *row {
            Row::Column(a) => [1, byte(a), 0, 0],
            Row::Apply(a, b, c) => [2, byte(a), byte(b), c.map_or(255, byte)],
            Row::Choose(a, b, c) => [3, byte(a), byte(b), byte(c)],
            Row::Output(a) => [4, byte(a), 0, 0],
            Row::Condition(a) => [5, byte(a), 0, 0],
        })
        .collect()
}
