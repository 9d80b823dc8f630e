//! What an arrival and a departure are given: a book with its right marks.

use crate::Input;
use books::draft::BLOCK;
use books::edits::{Record, HEAD};
use second::editing;

/// A record, and what is done with it.
pub struct Editing {
    pub record: Record,
    pub edit: Edit,
}

/// An arrival with its block, or a departure with its number.
pub enum Edit {
    Arrive(Vec<u8>),
    Depart(u32),
}

/// Is a rule of a book idle?
type Idle = fn(&[u8], u32) -> bool;

/// The edits by their names.
pub const NAMES: [&str; 3] = ["arrive, last", "depart, first", "depart, last"];

impl Editing {
    /// The last rule arrives at the book without it, or the first or the last one leaves. The marks are by this
    /// Idle.
    pub fn named(name: &str, input: &Input, is_idle: Idle) -> Editing {
        let of = |book: &[u8], edit| {
            let mut record = Record::of(book);
            let idle = (0..record.rules).filter(|&rule| is_idle(book, rule));
            record.marks = idle.map(|rule| 1 << rule).sum();
            Editing { record, edit }
        };
        let book = &input.book;
        let (others, last) = book.split_at(book.len() - BLOCK);
        let rules = (book.len() / BLOCK - HEAD) as u32;
        match name {
            "arrive, last" => of(others, Edit::Arrive(last.to_vec())),
            "depart, first" => of(book, Edit::Depart(0)),
            _ => of(book, Edit::Depart(rules - 1)),
        }
    }

    /// The record of the second implementation.
    pub fn second(&self) -> editing::Record {
        editing::Record {
            blocks: self.record.blocks.clone(),
            rules: self.record.rules,
            marks: self.record.marks,
        }
    }
}

#[cfg(test)]
mod tests {
    use super::*;
    use books::named;

    /// In the small shop rules 0 and 2 are idle, beside rule 1 alone.
    #[test]
    fn edits_of_the_small_shop() {
        let is_idle = |book: &[u8], rule: u32| second::idle(book, rule, &mut [0; 36]) == Ok(None);
        let input = Input::new("small shop".to_string(), named::small_shop(), 0..1);
        for (name, before, after) in [
            ("arrive, last", 0b001, 0b101),
            ("depart, first", 0b101, 0b10),
            ("depart, last", 0b101, 0b01),
        ] {
            let given = Editing::named(name, &input, is_idle);
            assert_eq!(given.record.marks, before, "{name}");
            let mut record = given.second();
            let reply = match given.edit {
                Edit::Arrive(block) => second::arrive(&mut record, &block),
                Edit::Depart(rule) => second::depart(&mut record, rule),
            };
            assert_eq!(reply, Ok(after), "{name}");
        }
    }
}
