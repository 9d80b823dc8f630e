//! A plan as text, one row a line.
//!
//! ```text
//! 0 = column price           # a column's name, or a label: then its lowest column
//! 1 = avg(0)                 # a function of one row or of two
//! 2 = choose 0 ? 0 : 1       # the first row decides
//! output 2
//! where 1                    # a condition
//! ```
//!
//! The number before `=` may be left out. Where it stands, it is checked: rows count from 0, and
//! `output` and `where` are rows too.

use crate::contents::Contents;
use crate::mistake::{mistake, Mistake, Mistakes};
use crate::named::NamedBook;
use crate::names::Names;
use crate::text::{self, place, Cursor, Line};
use pspec::Plan;

/// A plan and the lines that its rows come from.
#[derive(Clone, Debug, Default, PartialEq, Eq)]
pub struct PlanText {
    /// The plan.
    pub plan: Plan,
    /// Each row's line.
    pub lines: Vec<usize>,
}

/// No second row.
pub(crate) const NONE: u8 = 255;

const ROW: &str = "'column', a function, 'choose', 'output' or 'where'";

/// Reads a plan for a book.
pub fn read(text: &str, named: &NamedBook) -> Result<PlanText, Mistakes> {
    let (mut bytes, mut lines, mut mistakes) = (vec![], vec![], vec![]);
    for line in text::lines(text, &mut mistakes) {
        let row = row(line, lines.len(), &named.contents, &named.names);
        bytes.extend(row.as_ref().unwrap_or(&[0; 4]));
        lines.push(line.number);
        mistakes.extend(row.err());
    }
    Mistakes::of(mistakes)?;
    let plan = Plan::new(bytes);
    Ok(PlanText { plan, lines })
}

fn row(line: Line, number: usize, contents: &Contents, names: &Names) -> Result<[u8; 4], Mistake> {
    let mut cursor = Cursor::new(line);
    if cursor.ahead(1) == Some("=") {
        let wrong = cursor.found(&format!("{number}, the number of this row"));
        if cursor.number("the number of this row")? != number {
            return Err(wrong);
        }
        cursor.expect("=")?;
    }
    let row = match (cursor.ahead(0), cursor.ahead(1)) {
        (_, Some("(")) => apply(&mut cursor, names)?,
        (Some("choose"), Some(_)) => choose(&mut cursor)?,
        (Some("output"), Some(_)) => last(&mut cursor, "output", 4)?,
        (Some("where"), Some(_)) => last(&mut cursor, "where", 5)?,
        _ => column(&mut cursor, contents, names)?,
    };
    cursor.end()?;
    Ok(row)
}

/// 'column' and a name, or the name alone.
fn column(cursor: &mut Cursor, contents: &Contents, names: &Names) -> Result<[u8; 4], Mistake> {
    let introduced = cursor.ahead(1).is_some() && cursor.take("column");
    let expected = match introduced {
        true => "a column, or a label that some column has",
        false => ROW,
    };
    let unknown = cursor.found(expected);
    let name = cursor.name(expected)?;
    let by_name = place(&names.columns, name);
    let by_label = || {
        let label = place(&names.data, name)?;
        let lowest = contents.columns.iter().position(|&of| of == label)?;
        Some(lowest as u8)
    };
    let column = by_name.or_else(by_label).ok_or(unknown)?;
    Ok([1, column, 0, 0])
}

fn apply(cursor: &mut Cursor, names: &Names) -> Result<[u8; 4], Mistake> {
    let function = cursor.known(&names.functions, "a function that the book has")?;
    cursor.expect("(")?;
    let first = named_row(cursor)?;
    let second = match cursor.take(",") {
        true => named_row(cursor)?,
        false => NONE,
    };
    cursor.expect(")")?;
    Ok([2, function, first, second])
}

fn choose(cursor: &mut Cursor) -> Result<[u8; 4], Mistake> {
    cursor.expect("choose")?;
    let decides = named_row(cursor)?;
    cursor.expect("?")?;
    let yes = named_row(cursor)?;
    cursor.expect(":")?;
    let no = named_row(cursor)?;
    Ok([3, decides, yes, no])
}

fn last(cursor: &mut Cursor, word: &str, kind: u8) -> Result<[u8; 4], Mistake> {
    cursor.expect(word)?;
    Ok([kind, named_row(cursor)?, 0, 0])
}

/// The number of a row, which must fit a byte and must not be read as 'no second row'.
fn named_row(cursor: &mut Cursor) -> Result<u8, Mistake> {
    let line = cursor.line();
    let number = cursor.number("the number of a row")?;
    match u8::try_from(number) {
        Ok(number) if number < NONE => Ok(number),
        _ => {
            let what = format!("found row {number}; expected a number up to 63");
            Err(mistake(line, what))
        }
    }
}

/// The text of a plan that the engine accepts.
pub fn text(plan: &Plan, names: &Names) -> String {
    let line = |(i, row): (usize, [u8; 4])| match row {
        [1, a, ..] => format!("{i} = column {}\n", names.columns[usize::from(a)]),
        [2, a, b, NONE] => format!("{i} = {}({b})\n", names.functions[usize::from(a)]),
        [2, a, b, c] => format!("{i} = {}({b}, {c})\n", names.functions[usize::from(a)]),
        [3, a, b, c] => format!("{i} = choose {a} ? {b} : {c}\n"),
        [4, a, ..] => format!("output {a}\n"),
        [_, a, ..] => format!("where {a}\n"),
    };
    plan.rows().enumerate().map(line).collect()
}

/// The plan of rows of eight hexadecimal digits each; else the first word that is none.
pub fn from_digits(words: &str) -> Result<Plan, String> {
    let mut bytes = Vec::new();
    for word in words.split_whitespace() {
        let is_row = word.len() == 8 && word.bytes().all(|digit| digit.is_ascii_hexdigit());
        let row = u32::from_str_radix(word, 16).ok().filter(|_| is_row);
        bytes.extend(row.ok_or_else(|| word.to_string())?.to_be_bytes());
    }
    Ok(Plan::new(bytes))
}

/// The accesses of a plan of the form that Idle shows, in words.
pub fn accesses(plan: &Plan, named: &NamedBook) -> Vec<String> {
    let NamedBook {
        contents, names, ..
    } = named;
    let mut value = String::new();
    let mut accesses = Vec::new();
    for row in plan.rows() {
        let number = usize::from(row[1]);
        match row[0] {
            1 => value = names.data[usize::from(contents.columns[number])].clone(),
            2 => value = format!("{}({value})", names.operation(contents.functions[number])),
            4 => accesses.push(format!("output {value}")),
            _ => accesses.push(format!("condition {value}")),
        }
    }
    accesses
}
