//! A book with its names.

use crate::contents::Contents;
use crate::names::Names;
use pspec::Book;

/// A book, what it says, and the names of its numbers.
#[derive(Clone, Debug, PartialEq, Eq)]
pub struct NamedBook {
    /// The book that the engine accepted.
    pub book: Book,
    /// What it says.
    pub contents: Contents,
    /// The names of its numbers.
    pub names: Names,
}

impl NamedBook {
    /// The book with these names, which must be as many as it needs.
    pub fn new(book: Book, names: Names) -> NamedBook {
        let contents = Contents::of(&book);
        NamedBook {
            book,
            contents,
            names,
        }
    }
}
