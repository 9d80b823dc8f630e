//! Paths, and the accesses that they give.

use crate::access::{Access, Action};
use crate::book::Book;
use crate::operation::Operation;
use crate::plan::Row;
use std::collections::BTreeSet;

/// "A path goes from a row down to a Column row": its column, and the Apply rows that it passes,
/// counted upward from the column.
#[derive(Clone, Debug, PartialEq, Eq)]
pub struct Path {
    /// The column at its foot.
    pub column: usize,
    /// The Apply rows on its way up.
    pub applied: Vec<Applied>,
}

/// An Apply row on a path.
#[derive(Clone, Copy, Debug, PartialEq, Eq)]
pub enum Applied {
    /// A function of one row: c is 255.
    OneRow(usize),
    /// A function of two rows: c is a row, also when it is b. Which function does not matter.
    TwoRows,
}

impl Applied {
    /// By the function and c of the row.
    fn new(function: usize, c: Option<usize>) -> Applied {
        match c {
            None => Applied::OneRow(function),
            Some(_) => Applied::TwoRows,
        }
    }
}

impl Path {
    /// The functions that count, upward from the column. Document 02, N5: "On a path, an Apply with
    /// two rows doesn't count as an operation, and nothing above it does. An Apply with one row, and
    /// Choose, are as before."
    pub fn counting(&self) -> impl Iterator<Item = usize> + '_ {
        self.applied.iter().map_while(|applied| match *applied {
            Applied::OneRow(function) => Some(function),
            Applied::TwoRows => None,
        })
    }
}

/// A label, and whether the path that carries it has an operation so far.
type Carried = (usize, SoFar);

/// Whether a path has an operation so far, when it is followed upward.
#[derive(Clone, Copy, PartialEq, Eq, PartialOrd, Ord)]
enum SoFar {
    /// None, but a function above may give one.
    NotYet,
    /// This one, which it keeps.
    Has(Operation),
    /// None, and nothing above counts.
    Ended,
}

/// Above this many paths the accesses are worked out row by row.
const MANY: u128 = 2_000;

/// The rows that a path may go down to: "through b or c of Apply and Choose, never through a of
/// Choose".
fn below(row: Row) -> Vec<usize> {
    match row {
        Row::Apply(_, b, c) => [Some(b), c].into_iter().flatten().collect(),
        Row::Choose(_, b, c) => vec![b, c],
        Row::Column(_) | Row::Output(_) | Row::Condition(_) => vec![],
    }
}

/// All paths from a row.
pub fn paths(rows: &[Row], row: usize) -> Vec<Path> {
    if let Row::Column(column) = rows[row] {
        let applied = Vec::new();
        return vec![Path { column, applied }];
    }
    let mut all: Vec<Path> = below(rows[row])
        .into_iter()
        .flat_map(|lower| paths(rows, lower))
        .collect();
    if let Row::Apply(function, _, c) = rows[row] {
        let applied = Applied::new(function, c);
        all.iter_mut().for_each(|path| path.applied.push(applied));
    }
    all
}

/// The number of paths from each row.
fn counts(rows: &[Row]) -> Vec<u128> {
    let mut counts: Vec<u128> = Vec::new();
    for &row in rows {
        let lower: u128 = below(row).into_iter().map(|i| counts[i]).sum();
        let column = u128::from(matches!(row, Row::Column(_)));
        counts.push(lower + column);
    }
    counts
}

/// "Its operation is that of the first function, counted upward from the column, whose operation is
/// not 0 and is supported by the label; if there is none, 0." Only functions that count are meant.
pub fn operation(book: &Book, path: &Path, label: usize) -> Operation {
    path.counting()
        .map(|function| book.functions[function])
        .find(|operation| *operation != 0 && book.supported[label].contains(operation))
        .unwrap_or(0)
}

/// Where accesses are given: the action, and the row whose paths give them. "An Output row gives
/// the accesses (projection, label, operation) of every path from its row. A Condition row gives
/// them as condition, and so does a of every Choose, used or not."
fn sources(rows: &[Row]) -> Vec<(Action, usize)> {
    rows.iter()
        .filter_map(|row| match *row {
            Row::Output(a) => Some((Action::Projection, a)),
            Row::Condition(a) | Row::Choose(a, _, _) => Some((Action::Condition, a)),
            Row::Column(_) | Row::Apply(..) => None,
        })
        .collect()
}

/// The accesses of a plan.
pub fn accesses(book: &Book, rows: &[Row]) -> BTreeSet<Access> {
    let counts = counts(rows);
    let total: u128 = sources(rows).iter().map(|&(_, row)| counts[row]).sum();
    if total <= MANY {
        accesses_by_paths(book, rows)
    } else {
        accesses_by_rows(book, rows)
    }
}

/// The accesses of a plan, path by path. A row may have 2 to the power 32 paths and more.
pub fn accesses_by_paths(book: &Book, rows: &[Row]) -> BTreeSet<Access> {
    let mut found = BTreeSet::new();
    for (action, row) in sources(rows) {
        for path in paths(rows, row) {
            // "It carries the column's label, if any."
            if let Some(leaf) = book.columns[path.column] {
                let operation = operation(book, &path, leaf);
                found.insert(Access {
                    action,
                    leaf,
                    operation,
                });
            }
        }
    }
    found
}

/// The accesses of a plan, row by row: two paths that carry the same to a row go on alike.
pub fn accesses_by_rows(book: &Book, rows: &[Row]) -> BTreeSet<Access> {
    let carried = carried(book, rows);
    let access = |action: Action, (leaf, so_far): Carried| Access {
        action,
        leaf,
        operation: match so_far {
            SoFar::Has(operation) => operation,
            SoFar::NotYet | SoFar::Ended => 0,
        },
    };
    sources(rows)
        .into_iter()
        .flat_map(|(action, row)| carried[row].iter().map(move |&c| access(action, c)))
        .collect()
}

/// What the paths from each row carry.
fn carried(book: &Book, rows: &[Row]) -> Vec<BTreeSet<Carried>> {
    let mut all: Vec<BTreeSet<Carried>> = Vec::new();
    for &row in rows {
        let lower = below(row).into_iter().flat_map(|i| all[i].iter().copied());
        let here = match row {
            Row::Column(column) => book.columns[column]
                .map(|label| (label, SoFar::NotYet))
                .into_iter()
                .collect(),
            Row::Apply(function, _, c) => {
                let applied = Applied::new(function, c);
                lower.map(|carried| pass(book, applied, carried)).collect()
            }
            Row::Choose(..) => lower.collect(),
            Row::Output(_) | Row::Condition(_) => BTreeSet::new(),
        };
        all.push(here);
    }
    all
}

/// What goes on after an Apply row: the first operation that counts and that the label supports
/// stays.
fn pass(book: &Book, applied: Applied, (label, so_far): Carried) -> Carried {
    let so_far = match (so_far, applied) {
        (SoFar::NotYet, Applied::OneRow(function)) => {
            let operation = book.functions[function];
            let takes = operation != 0 && book.supported[label].contains(&operation);
            if takes {
                SoFar::Has(operation)
            } else {
                SoFar::NotYet
            }
        }
        (SoFar::NotYet, Applied::TwoRows) => SoFar::Ended,
        (SoFar::Has(_) | SoFar::Ended, _) => so_far,
    };
    (label, so_far)
}
