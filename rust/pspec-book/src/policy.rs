//! The policy file.
//!
//! A section starts with its name at the left margin; its lines are indented. `#` starts a comment.
//! The sections come in this order, and all but `users` and `data` may be left out:
//!
//! ```text
//! operations             # only to number operations otherwise than by first appearance
//!   avg
//! users                  # a tree by indentation; the first line is the root
//!   Analyst
//!     Report
//! data                   # the same, with each category's own operations
//!   All
//!     Price [avg, sum]
//!       Cost withdraws [avg]   # what Price supports but avg, here and below
//!     Name
//!   Tax under Price      # where the order of the lines keeps it from standing below Price
//! columns                # a data leaf, or '-' for an unlabelled column
//!   price: Price
//! functions              # an operation, or '-' for none
//!   mean: avg
//! rules                  # see the module `rule`
//!   Analyst, [access Price] => [{avg}]
//! ```
//!
//! Numbers are given in the order of the lines, from 0; operations in the order of their first
//! appearance, from 1.
//!
//! A line of the data is `Name [own] withdraws [withdrawn] under Upper`, of which all but the name may
//! be left out; `withdraws []` withdraws nothing. A category supports what the one above it supports,
//! less what it withdraws, and its own. Where some line has `withdraws` the block of the data is of
//! kind 6, else of kind 2.

use crate::contents::{bits, Category, Contents, OPERATIONS, UNLABELLED};
use crate::mistake::{mistake, Mistake, Mistakes};
use crate::names::Names;
use crate::phrases::shown;
use crate::rule;
use crate::text::{self, Cursor, Line, Section};
use crate::tree::Tree;

/// A policy: what it says, its names, and the lines that they come from.
#[derive(Clone, Debug, Default, PartialEq, Eq)]
pub struct Policy {
    /// What it says, by numbers.
    pub contents: Contents,
    /// The names of the numbers.
    pub names: Names,
    /// Where each thing stands in the file.
    pub lines: Lines,
}

/// The numbers of the lines that a policy comes from.
#[derive(Clone, Debug, Default, PartialEq, Eq)]
pub struct Lines {
    /// Each section's own line; `SECTIONS` has their names.
    pub sections: [usize; 6],
    /// Each column's line.
    pub columns: Vec<usize>,
    /// Each rule's line.
    pub rules: Vec<usize>,
}

/// What stands in a line of the data after the name.
struct DataLine {
    own: u16,
    /// None where the line does not have 'withdraws'.
    withdrawn: Option<u16>,
    /// The category after 'under'.
    upper: Option<u8>,
}

/// The sections in their order.
pub const SECTIONS: [&str; 6] = [
    "operations",
    "users",
    "data",
    "columns",
    "functions",
    "rules",
];
const USERS: usize = 1;
const DATA: usize = 2;

/// The most lines of each section.
const MOST: [usize; 6] = [OPERATIONS, 32, 64, 128, 64, 32];

/// Reads a policy file. All mistakes are found, but that a section without a known place ends the
/// reading: what it would have named is missing in all that follows.
pub fn read(text: &str) -> Result<Policy, Mistakes> {
    let mut mistakes = Vec::new();
    let lines = text::lines(text, &mut mistakes);
    let end = text.lines().count().max(1);
    let mut policy = Policy::default();
    let ended = policy.sections(&lines, end, &mut mistakes);
    mistakes.extend(ended.err());
    Mistakes::of(mistakes)?;
    Ok(policy)
}

/// Which section a header starts, where those before `next` are done.
fn place_of(header: Line, next: usize) -> Result<usize, Mistake> {
    let place = SECTIONS.iter().position(|&name| name == header.text);
    // Users and data can't be passed over.
    let last = match next {
        0..=USERS => USERS,
        DATA => DATA,
        _ => SECTIONS.len() - 1,
    };
    match place {
        Some(place) if (next..=last).contains(&place) => Ok(place),
        _ => {
            let open = SECTIONS[next..=last].join(" or ");
            let expected = match open.as_str() {
                "" => "no further section".to_string(),
                _ => format!("the section {open}"),
            };
            let what = format!(
                "found '{}' at the left margin; expected {expected}",
                shown(header.text)
            );
            Err(mistake(header.number, what))
        }
    }
}

impl Policy {
    fn sections(
        &mut self,
        lines: &[Line],
        end: usize,
        mistakes: &mut Vec<Mistake>,
    ) -> Result<(), Mistake> {
        let mut next = 0;
        for section in text::sections(lines)? {
            let place = place_of(section.header, next)?;
            self.lines.sections[place] = section.header.number;
            counts(place, &section)?;
            self.section(place, &section, mistakes);
            next = place + 1;
        }
        if next > DATA {
            return Ok(());
        }
        let missing = SECTIONS[next.max(USERS)];
        let what = format!("found the end of the file; expected the section '{missing}'");
        Err(mistake(end, what))
    }

    fn section(&mut self, place: usize, section: &Section, mistakes: &mut Vec<Mistake>) {
        let mut tree = Tree::default();
        for &line in &section.lines {
            let read = match place {
                0 => self.operation(line),
                USERS => self.user(line, &mut tree),
                DATA => self.data(line, &mut tree),
                3 => self.column(line),
                4 => self.function(line),
                _ => self.rule(line),
            };
            mistakes.extend(read.err());
        }
    }

    fn operation(&mut self, line: Line) -> Result<(), Mistake> {
        let mut cursor = Cursor::new(line);
        new_name(&mut cursor, &mut self.names.operations, "an operation")?;
        cursor.end()
    }

    fn user(&mut self, line: Line, tree: &mut Tree) -> Result<(), Mistake> {
        let read = self.user_line(line);
        let parent = tree.parent(line, read.clone().unwrap_or(None));
        read?;
        self.contents.users.push(parent?);
        Ok(())
    }

    /// The category after 'under'.
    fn user_line(&mut self, line: Line) -> Result<Option<u8>, Mistake> {
        let mut cursor = Cursor::new(line);
        new_name(&mut cursor, &mut self.names.users, "a user category")?;
        let upper = upper(&mut cursor, &self.names.users)?;
        end_of_category(&cursor, "", upper)?;
        Ok(upper)
    }

    fn data(&mut self, line: Line, tree: &mut Tree) -> Result<(), Mistake> {
        let read = self.data_line(line);
        let upper = read.as_ref().map_or(None, |read| read.upper);
        let parent = tree.parent(line, upper);
        let DataLine { own, withdrawn, .. } = read?;
        self.contents.has_withdrawn |= withdrawn.is_some();
        self.contents.data.push(Category {
            parent: parent?,
            own,
            withdrawn: withdrawn.unwrap_or(0),
        });
        Ok(())
    }

    fn data_line(&mut self, line: Line) -> Result<DataLine, Mistake> {
        let mut cursor = Cursor::new(line);
        new_name(&mut cursor, &mut self.names.data, "a data category")?;
        let own = self.own(&mut cursor)?;
        let withdrawn = self.withdrawn(&mut cursor)?;
        let upper = upper(&mut cursor, &self.names.data)?;
        let open = match (own, withdrawn) {
            (None, None) => "'[', 'withdraws', ",
            (Some(_), None) => "'withdraws', ",
            (_, Some(_)) => "",
        };
        end_of_category(&cursor, open, upper)?;
        let own = own.unwrap_or(0);
        if let Some(k) = bits(own & withdrawn.unwrap_or(0)).next() {
            let operation = self.names.operation(k);
            let what = format!(
                "found the operation {operation} owned and withdrawn; expected it in one list only"
            );
            return Err(mistake(line.number, what));
        }
        Ok(DataLine {
            own,
            withdrawn,
            upper,
        })
    }

    fn own(&mut self, cursor: &mut Cursor) -> Result<Option<u16>, Mistake> {
        match cursor.take("[") {
            true => self.listed(cursor).map(Some),
            false => Ok(None),
        }
    }

    /// The list after 'withdraws', which may be empty.
    fn withdrawn(&mut self, cursor: &mut Cursor) -> Result<Option<u16>, Mistake> {
        if !cursor.take("withdraws") {
            return Ok(None);
        }
        cursor.expect("[")?;
        match cursor.take("]") {
            true => Ok(Some(0)),
            false => self.listed(cursor).map(Some),
        }
    }

    /// Operations up to the end of their list.
    fn listed(&mut self, cursor: &mut Cursor) -> Result<u16, Mistake> {
        let mask = rule::operation_mask(cursor, &mut self.names)?;
        match cursor.take("]") {
            true => Ok(mask),
            false => Err(cursor.found("',' or ']'")),
        }
    }

    fn column(&mut self, line: Line) -> Result<(), Mistake> {
        let mut cursor = Cursor::new(line);
        new_name(&mut cursor, &mut self.names.columns, "a column")?;
        cursor.expect(":")?;
        let label = match cursor.take("-") {
            true => UNLABELLED,
            false => cursor.known(&self.names.data, "a data category or '-'")?,
        };
        cursor.end()?;
        self.lines.columns.push(line.number);
        self.contents.columns.push(label);
        Ok(())
    }

    fn function(&mut self, line: Line) -> Result<(), Mistake> {
        let mut cursor = Cursor::new(line);
        new_name(&mut cursor, &mut self.names.functions, "a function")?;
        cursor.expect(":")?;
        let operation = match cursor.take("-") {
            true => 0,
            false => rule::operation(&mut cursor, &mut self.names)?,
        };
        cursor.end()?;
        self.contents.functions.push(operation);
        Ok(())
    }

    fn rule(&mut self, line: Line) -> Result<(), Mistake> {
        let rule = rule::read(line, &mut self.names)?;
        self.lines.rules.push(line.number);
        self.contents.rules.push(rule);
        Ok(())
    }
}

/// A section has as many lines as there is room for.
fn counts(place: usize, section: &Section) -> Result<(), Mistake> {
    let least = usize::from(place == USERS || place == DATA);
    let (found, most) = (section.lines.len(), MOST[place]);
    if found >= least && found <= most {
        return Ok(());
    }
    let what = format!(
        "found {found} lines in the section '{}'; expected {least} to {most}",
        SECTIONS[place]
    );
    Err(mistake(section.header.number, what))
}

/// Adds a name to a list that must not have it yet.
fn new_name(cursor: &mut Cursor, list: &mut Vec<String>, what: &str) -> Result<(), Mistake> {
    let twice = cursor.found(&format!("the name of {what} that no line above has"));
    let name = cursor.name(&format!("the name of {what}"))?.to_string();
    if list.contains(&name) {
        return Err(twice);
    }
    list.push(name);
    Ok(())
}

/// The category after 'under'. The line's own name, which is the list's last, is not above it.
fn upper(cursor: &mut Cursor, list: &[String]) -> Result<Option<u8>, Mistake> {
    if !cursor.take("under") {
        return Ok(None);
    }
    let above = &list[..list.len() - 1];
    cursor.known(above, "a category of a line above").map(Some)
}

/// The line ends here. Else 'under' could have stood here where it has not stood yet, and what `open`
/// says.
fn end_of_category(cursor: &Cursor, open: &str, upper: Option<u8>) -> Result<(), Mistake> {
    let expected = match upper {
        Some(_) => "the end of the line".to_string(),
        None => format!("{open}'under' or the end of the line"),
    };
    cursor.end().map_err(|_| cursor.found(&expected))
}
