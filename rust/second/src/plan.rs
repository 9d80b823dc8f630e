//! The rows of a plan.

use crate::book::Book;
use crate::refusal::{Refusal, FAULTY_ROW, PLAN_LENGTH};

/// "A row is read by its kind". Rows, columns and functions are named by number.
#[derive(Clone, Copy, Debug, PartialEq, Eq)]
pub enum Row {
    /// "1 Column: a is a column, b and c zero."
    Column(usize),
    /// "2 Apply: a is a function, b a row, c a row or 255 for no second row."
    Apply(usize, usize, Option<usize>),
    /// "3 Choose: a, b, c rows; a decides."
    Choose(usize, usize, usize),
    /// "4 Output: a is a row, b and c zero."
    Output(usize),
    /// "5 Condition: as 4."
    Condition(usize),
}

impl Row {
    /// The rows that a row names, in the order a, b, c.
    pub fn named(self) -> Vec<usize> {
        match self {
            Row::Column(_) => vec![],
            Row::Apply(_, b, c) => [Some(b), c].into_iter().flatten().collect(),
            Row::Choose(a, b, c) => vec![a, b, c],
            Row::Output(a) | Row::Condition(a) => vec![a],
        }
    }
}

/// The rows of an accepted plan: "a plan, for that book, when neither 21 nor 22 applies to it".
pub fn read(bytes: &[u8], book: &Book) -> Result<Vec<Row>, Refusal> {
    if bytes.len() % 4 != 0 || bytes.len() > 256 {
        return Err(Refusal::of(PLAN_LENGTH));
    }
    let kinds: Vec<u8> = bytes.chunks(4).map(|row| row[0]).collect();
    let sound = |(i, bytes): (usize, &[u8])| {
        row(bytes, book)
            .filter(|row| row.named().iter().all(|&named| may_name(&kinds, i, named)))
            .ok_or(Refusal::at(FAULTY_ROW, i))
    };
    bytes.chunks(4).enumerate().map(sound).collect()
}

/// "A named row is lower than the row naming it and of kind 1 to 3."
fn may_name(kinds: &[u8], row: usize, named: usize) -> bool {
    named < row && (1..=3).contains(&kinds[named])
}

/// A row by its own bytes.
fn row(bytes: &[u8], book: &Book) -> Option<Row> {
    let [a, b, c] = [1, 2, 3].map(|i| usize::from(bytes[i]));
    let alone = b == 0 && c == 0;
    match bytes[0] {
        1 if alone && a < book.columns.len() => Some(Row::Column(a)),
        2 if a < book.functions.len() => Some(Row::Apply(a, b, (c != 255).then_some(c))),
        3 => Some(Row::Choose(a, b, c)),
        4 if alone => Some(Row::Output(a)),
        5 if alone => Some(Row::Condition(a)),
        _ => None,
    }
}
