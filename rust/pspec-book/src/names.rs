//! The names of a book's numbers, and the file that keeps them beside the book.
//!
//! The file lists the names lowest number first, one a line, in a section for each kind. Before them
//! it repeats the book, one line a block, so that names are taken for the book they were made for and
//! for no other. A digest would be shorter, but then two books could share one.

use crate::contents::{Contents, OPERATIONS};
use crate::mistake::{mistake, Mistake};
use crate::phrases::shown;
use crate::text::{self, Cursor, Line, Section};
use pspec::{Book, BLOCK};

/// The names of a book's numbers.
#[derive(Clone, Debug, Default, PartialEq, Eq)]
pub struct Names {
    /// The user categories.
    pub users: Vec<String>,
    /// The data categories.
    pub data: Vec<String>,
    /// The operations; the first is operation 1.
    pub operations: Vec<String>,
    /// The columns.
    pub columns: Vec<String>,
    /// The functions.
    pub functions: Vec<String>,
}

const HEADERS: [&str; 5] = ["users", "data", "operations", "columns", "functions"];

impl Names {
    /// Names made of a word and the number, for a book without any.
    pub fn numbered(contents: &Contents) -> Names {
        let names = |word: &str, numbers: std::ops::Range<usize>| {
            numbers.map(|i| format!("{word}{i}")).collect()
        };
        Names {
            users: names("user", 0..contents.users.len()),
            data: names("data", 0..contents.data.len()),
            operations: names("op", 1..highest(contents) + 1),
            columns: names("column", 0..contents.columns.len()),
            functions: names("function", 0..contents.functions.len()),
        }
    }

    /// The name of an operation from 1 up.
    pub fn operation(&self, k: u8) -> &str {
        &self.operations[usize::from(k) - 1]
    }

    /// The file's text, for a book.
    pub fn text(&self, book: &Book) -> String {
        let blocks = blocks(book);
        let sections = [("book", &blocks)].into_iter();
        let sections = sections.chain(HEADERS.into_iter().zip(self.lists()));
        let mut text = String::new();
        for (header, list) in sections {
            text += &format!("{header}\n");
            for line in list {
                text += &format!("  {line}\n");
            }
        }
        text
    }

    /// Reads the file's text, which must fit the book.
    pub fn read(text: &str, book: &Book) -> Result<Names, Mistake> {
        let mut mistakes = Vec::new();
        let lines = text::lines(text, &mut mistakes);
        if let Some(tab) = mistakes.into_iter().next() {
            return Err(tab);
        }
        let sections = text::sections(&lines)?;
        let end = text.lines().count().max(1);
        let mut sections = sections.into_iter();
        fitting(sections.next(), book, end)?;
        let needed = Names::numbered(&Contents::of(book));
        let mut names = Names::default();
        let kinds = HEADERS.iter().zip(needed.lists());
        for ((header, needed), list) in kinds.zip(names.lists_mut()) {
            *list = listed(header, needed.len(), sections.next(), end)?;
        }
        if let Some(section) = sections.next() {
            let what = format!("found '{}'; expected the end", shown(section.header.text));
            return Err(mistake(section.header.number, what));
        }
        Ok(names)
    }

    fn lists(&self) -> [&Vec<String>; 5] {
        [
            &self.users,
            &self.data,
            &self.operations,
            &self.columns,
            &self.functions,
        ]
    }

    fn lists_mut(&mut self) -> [&mut Vec<String>; 5] {
        [
            &mut self.users,
            &mut self.data,
            &mut self.operations,
            &mut self.columns,
            &mut self.functions,
        ]
    }
}

/// The highest operation of a book.
fn highest(contents: &Contents) -> usize {
    contents
        .operations()
        .into_iter()
        .max()
        .map_or(0, usize::from)
}

/// Each block in hexadecimal digits, without the check and without the zeros before it. The engine
/// accepts only one check for the other bytes, so equal lines are equal books.
fn blocks(book: &Book) -> Vec<String> {
    let digits = |block: &[u8]| {
        let fields = &block[..BLOCK - 2];
        let used = fields.iter().rposition(|&byte| byte != 0);
        let used = &fields[..used.map_or(0, |last| last + 1)];
        used.iter().map(|byte| format!("{byte:02x}")).collect()
    };
    book.bytes().chunks_exact(BLOCK).map(digits).collect()
}

/// The file's first section must repeat the book.
fn fitting(first: Option<Section>, book: &Book, end: usize) -> Result<(), Mistake> {
    let (line, found, lines) = match &first {
        Some(section) => (section.header.number, section.header.text, &*section.lines),
        None => (end, "nothing", &[][..]),
    };
    let another = |line: usize, what: String| {
        let advice = "Build the book again, or delete this file to see numbers";
        mistake(line, format!("{what}: these are not its names. {advice}"))
    };
    if found != "book" {
        let found = shown(found);
        let what = format!("found '{found}'; expected 'book' and the bytes of the book");
        return Err(another(line, what));
    }
    let wanted = blocks(book);
    for (i, (line, wanted)) in lines.iter().zip(&wanted).enumerate() {
        if line.text != wanted {
            let what = format!("found other bytes than the book has in block {i}");
            return Err(another(line.number, what));
        }
    }
    match (lines.len(), wanted.len()) {
        (found, wanted) if found == wanted => Ok(()),
        (found, wanted) => {
            let what = format!("found {found} blocks; expected {wanted}, as in the book");
            Err(another(line, what))
        }
    }
}

/// The names of one kind, as many as the book needs.
fn listed(
    header: &str,
    needed: usize,
    section: Option<Section>,
    end: usize,
) -> Result<Vec<String>, Mistake> {
    let Some(section) = section else {
        let what = format!("found the end of the file; expected '{header}'");
        return Err(mistake(end, what));
    };
    let (line, found) = (section.header.number, section.header.text);
    if found != header {
        let found = shown(found);
        return Err(mistake(
            line,
            format!("found '{found}'; expected '{header}'"),
        ));
    }
    let names = distinct(&section.lines)?;
    // Operations may be named that no category, function or rule has.
    let more = header == "operations" && names.len() <= OPERATIONS;
    if names.len() < needed || names.len() > needed && !more {
        let found = names.len();
        let what = format!("found {found} names of {header}; expected {needed}, as in the book");
        return Err(mistake(line, what));
    }
    Ok(names)
}

fn distinct(lines: &[Line]) -> Result<Vec<String>, Mistake> {
    let mut names = Vec::new();
    for &line in lines {
        let name = lone_name(line)?;
        if names.contains(&name) {
            let what = format!("found '{name}' a second time; expected each name once");
            return Err(mistake(line.number, what));
        }
        names.push(name);
    }
    Ok(names)
}

fn lone_name(line: Line) -> Result<String, Mistake> {
    let mut cursor = Cursor::new(line);
    let name = cursor.name("a name")?;
    cursor.end()?;
    Ok(name.to_string())
}
