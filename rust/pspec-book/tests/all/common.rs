//! Files of the repository, and books of texts.

use pspec::{Book, Broken, Plan, Verdict};
use pspec_book::contents::Contents;
use pspec_book::named::NamedBook;
use pspec_book::names::Names;
use pspec_book::{build, policy, report};
use std::path::PathBuf;

/// A file of the repository by its path from the root.
pub fn file(path: &str) -> PathBuf {
    PathBuf::from(env!("CARGO_MANIFEST_DIR"))
        .join("../..")
        .join(path)
}

/// The text of a file of the repository.
pub fn text(path: &str) -> String {
    let file = file(path);
    std::fs::read_to_string(&file).unwrap_or_else(|why| panic!("{}: {why}", file.display()))
}

/// The book of a text without mistakes.
pub fn built(text: &str) -> NamedBook {
    let policy = policy::read(text).expect("the text is a policy");
    let book = build::book(&policy).expect("the book is accepted");
    let named = NamedBook::new(book, policy.names);
    assert_eq!(named.contents, policy.contents);
    named
}

/// The report on a text's book.
pub fn report_on(text: &str) -> String {
    let mut out = Vec::new();
    report::write(&built(text), &mut out).expect("it is written");
    String::from_utf8(out).expect("it is text")
}

/// A sound book with numbers for names.
pub fn numbered(bytes: Vec<u8>) -> NamedBook {
    let book = Book::new(bytes).expect("it is sound");
    let names = Names::numbered(&Contents::of(&book));
    NamedBook::new(book, names)
}

/// The rules that a user and a sound plan break.
pub fn broken(book: &Book, user: u32, plan: &Plan) -> Broken {
    match book.judge(user, plan) {
        Verdict::Judged(broken) => broken,
        Verdict::Refused(refusal) => panic!("{refusal}"),
    }
}
