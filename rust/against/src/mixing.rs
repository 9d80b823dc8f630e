//! The sentences by which an Apply with two rows ends what counts on a path (document 02, N5), each
//! part of them misread: which flows, verdicts and asks depend on it.

use crate::records::places;
use books::reserve::Ask;
use second::access::{Access, Action};
use second::book::Book;
use second::ledger::{self, WORDS_OF_A_USER};
use second::operation::Operation;
use second::plan::Row;
use second::{breaking, path, plan, reading};
use std::collections::BTreeSet;

/// A misreading of "On a path, an Apply with two rows doesn't count as an operation, and nothing
/// above it does. An Apply with one row, and Choose, are as before."
#[derive(Clone, Copy, Debug, PartialEq, Eq)]
pub enum Misreading {
    /// An Apply with two rows counts itself; nothing above it does.
    ItselfCounts,
    /// An Apply with two rows doesn't count, but what is above it does.
    AboveCounts,
    /// What counted below an Apply with two rows no longer does.
    BelowIsForgotten,
    /// An Apply that names the same row twice has one row.
    SameRowIsOne,
    /// Nothing above a Choose counts.
    ChooseEnds,
    /// Document 01's lineage: an Apply with two rows is as one with one row.
    AsBefore,
}

/// All of them.
pub const MISREADINGS: [Misreading; 6] = [
    Misreading::ItselfCounts,
    Misreading::AboveCounts,
    Misreading::BelowIsForgotten,
    Misreading::SameRowIsOne,
    Misreading::ChooseEnds,
    Misreading::AsBefore,
];

/// What a path carries up to a row: its label, its operation so far, and whether it has passed what
/// ends counting.
type Carried = (usize, Operation, bool);

/// The accesses of a plan by a misreading, row by row; by none, they are the right ones.
pub fn accesses(book: &Book, rows: &[Row], misread: Option<Misreading>) -> BTreeSet<Access> {
    let mut reader = Reader {
        book,
        misread,
        carried: vec![],
    };
    let mut found = BTreeSet::new();
    for &row in rows {
        let given = match row {
            Row::Output(a) => Some((Action::Projection, a)),
            Row::Condition(a) | Row::Choose(a, _, _) => Some((Action::Condition, a)),
            Row::Column(_) | Row::Apply(..) => None,
        };
        if let Some((action, a)) = given {
            let access = |&(leaf, operation, _): &Carried| Access {
                action,
                leaf,
                operation,
            };
            found.extend(reader.carried[a].iter().map(access));
        }
        reader.carried.push(reader.carried_to(row));
    }
    found
}

/// A plan read row by row.
struct Reader<'a> {
    book: &'a Book,
    misread: Option<Misreading>,
    /// What the paths from each row so far carry.
    carried: Vec<BTreeSet<Carried>>,
}

impl Reader<'_> {
    fn misreads(&self, as_this: Misreading) -> bool {
        self.misread == Some(as_this)
    }

    fn carried_to(&self, row: Row) -> BTreeSet<Carried> {
        let lower = |rows: [usize; 2]| rows.into_iter().flat_map(|i| self.carried[i].clone());
        match row {
            Row::Column(column) => {
                let label = self.book.columns[column].into_iter();
                label.map(|label| (label, 0, false)).collect()
            }
            Row::Apply(function, b, c) => {
                let one_row = match c {
                    None => true,
                    Some(c) => b == c && self.misreads(Misreading::SameRowIsOne),
                };
                let apply = |carried| self.applied(function, one_row, carried);
                lower([b, c.unwrap_or(b)]).map(apply).collect()
            }
            Row::Choose(_, b, c) => {
                let ends = self.misreads(Misreading::ChooseEnds);
                let chosen = |(label, operation, ended)| (label, operation, ended || ends);
                lower([b, c]).map(chosen).collect()
            }
            Row::Output(_) | Row::Condition(_) => BTreeSet::new(),
        }
    }

    /// What a path carries on after an Apply.
    fn applied(&self, function: usize, one_row: bool, carried: Carried) -> Carried {
        let (label, before, ended) = carried;
        let counts = match self.misread {
            Some(Misreading::ItselfCounts) => !ended,
            Some(Misreading::AboveCounts) => one_row,
            Some(Misreading::AsBefore) => true,
            _ => one_row && !ended,
        };
        let own = self.book.functions[function];
        // No label supports operation 0.
        let supported = self.book.supported[label].contains(&own);
        let operation = match before {
            0 if counts && supported => own,
            _ if !one_row && self.misreads(Misreading::BelowIsForgotten) => 0,
            _ => before,
        };
        (label, operation, ended || !one_row)
    }
}

/// For each misreading, is something else said of a plan's accesses by it? None for what is refused.
fn depends<T: PartialEq>(
    book: &[u8],
    plan: &[u8],
    said: impl Fn(&Book, &BTreeSet<Access>) -> T,
) -> Option<[bool; 6]> {
    let book = reading::read(book).ok()?;
    let rows = plan::read(plan, &book).ok()?;
    let right = path::accesses(&book, &rows);
    let rightly = said(&book, &right);
    Some(MISREADINGS.map(|misread| {
        let wrong = accesses(&book, &rows, Some(misread));
        wrong != right && said(&book, &wrong) != rightly
    }))
}

/// For each misreading, do the accesses of a plan depend on it?
pub fn flows_depend(book: &[u8], plan: &[u8]) -> Option<[bool; 6]> {
    depends(book, plan, |_, accesses| accesses.clone())
}

/// For each misreading, does the verdict on a user and a plan depend on it?
pub fn verdict_depends(book: &[u8], user: usize, plan: &[u8]) -> Option<[bool; 6]> {
    depends(book, plan, |book, accesses| {
        breaking::broken(book, user, accesses)
    })
}

/// For each misreading, does the reply to an ask depend on it, or what is then held?
pub fn ask_depends(given: &Ask) -> Option<[bool; 6]> {
    let user = given.user as usize;
    let words = given.records.ledger.chunks(WORDS_OF_A_USER).nth(user)?;
    let mut before = ledger::accesses(words);
    for hold in places(&given.records.holds).of_user(user) {
        before.extend(hold.accesses());
    }
    depends(&given.book, &given.plan, |book, accesses| {
        let broken = breaking::broken(book, user, &(&before | accesses));
        let held = broken.is_empty().then_some(accesses.clone());
        (broken, held)
    })
}

#[cfg(test)]
mod tests {
    use super::*;
    use books::named::small_shop;
    use books::valid::{draft, Size};
    use books::{plans, Random};
    use Misreading::*;

    #[test]
    fn not_misread() {
        let mut random = Random::new(5);
        for size in [Size::Tiny, Size::Small, Size::Middle, Size::Large].repeat(100) {
            let draft = draft(&mut random, size);
            let book = reading::read(&draft.bytes()).expect("the draft is sound");
            let plan = plans::sound(&mut random, &draft);
            let rows = plan::read(&plan, &book).expect("the plan is sound");
            let right = path::accesses(&book, &rows);
            assert_eq!(accesses(&book, &rows, None), right);
        }
    }

    /// Just these misreadings give other accesses of a value than the right reading, when its rows
    /// follow 0 State, 1 City and 2 Price. Function 0 is concat, 1 is avg.
    fn depends_on(value: &[[u8; 4]], misreadings: &[Misreading]) {
        let columns = [[1, 0, 0, 0], [1, 1, 0, 0], [1, 2, 0, 0]];
        let output = [4, 2 + value.len() as u8, 0, 0];
        let plan = [&columns, value, &[output]].concat().concat();
        let depends = flows_depend(&small_shop().bytes(), &plan).expect("it is accepted");
        let wanted = MISREADINGS.map(|misread| misreadings.contains(&misread));
        assert_eq!(depends, wanted, "{value:?}");
    }

    #[test]
    fn each_part_is_misread() {
        // avg(State, Price), avg(Price, Price)
        depends_on(&[[2, 1, 0, 2]], &[ItselfCounts, AsBefore]);
        depends_on(&[[2, 1, 2, 2]], &[ItselfCounts, SameRowIsOne, AsBefore]);
        // avg(concat(State, Price)), avg(concat(Price, Price)), avg(concat(Price))
        let average = [2, 1, 3, 255];
        depends_on(&[[2, 0, 0, 2], average], &[AboveCounts, AsBefore]);
        let same = [AboveCounts, SameRowIsOne, AsBefore];
        depends_on(&[[2, 0, 2, 2], average], &same);
        depends_on(&[[2, 0, 2, 255], average], &[]);
        // concat(avg(Price), State)
        depends_on(&[[2, 1, 2, 255], [2, 0, 3, 0]], &[BelowIsForgotten]);
        // The average of a price or a state, and an average or a state, as City decides.
        depends_on(&[[3, 1, 2, 0], average], &[ChooseEnds]);
        depends_on(&[[2, 1, 2, 255], [3, 1, 3, 0]], &[]);
    }
}
