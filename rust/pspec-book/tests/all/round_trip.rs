//! Random books: blocks to text and back.

use crate::common::{built, numbered};
use books::valid::{self, Size};
use books::{plans, Draft, Random};
use pspec::{seal, Book, BLOCK};
use pspec_book::named::NamedBook;
use pspec_book::names::Names;
use pspec_book::{plan, show};

const SIZES: [Size; 4] = [Size::Tiny, Size::Small, Size::Middle, Size::Large];

fn drafts() -> impl Iterator<Item = Draft> {
    (0..400).map(|seed| {
        let mut random = Random::new(seed);
        valid::draft(&mut random, SIZES[seed as usize % 4])
    })
}

#[test]
fn the_same_bytes_come_back() {
    for draft in drafts() {
        let named = numbered(draft.bytes());
        assert_eq!(named.contents.book().as_ref(), Ok(&named.book));
        let text = show::text(&named.contents, &named.names);
        let again = built(&text);
        assert!(again.book == named.book, "{text}");
        assert_eq!(show::text(&again.contents, &again.names), text);
    }
}

#[test]
fn names_survive_their_file() {
    for draft in drafts() {
        let NamedBook {
            book,
            contents,
            mut names,
        } = numbered(draft.bytes());
        for name in &mut names.operations {
            *name = format!("x.{name}");
        }
        let read = Names::read(&names.text(&book), &book);
        assert_eq!(read.expect("it fits"), names);
        let again = built(&show::text(&contents, &names));
        assert_eq!((again.book, again.names), (book, names));
    }
}

/// A sound plan as text, every second row with its number.
fn plan_text(bytes: &[u8]) -> String {
    let rows = bytes.chunks_exact(4).enumerate();
    let line = |(i, row): (usize, &[u8])| {
        let [kind, a, b, c] = [row[0], row[1], row[2], row[3]];
        let said = match (kind, c) {
            (1, _) => format!("column column{a}"),
            (2, 255) => format!("function{a}({b})"),
            (2, _) => format!("function{a}({b}, {c})"),
            (3, _) => format!("choose {a} ? {b} : {c}"),
            (4, _) => format!("output {a}"),
            _ => format!("where {a}"),
        };
        match i % 2 {
            0 => format!("{i} = {said}\n"),
            _ => format!("{said}\n"),
        }
    };
    rows.map(line).collect()
}

#[test]
fn plans_are_read_as_they_are_written() {
    for (seed, draft) in drafts().enumerate() {
        let named = numbered(draft.bytes());
        let bytes = plans::sound(&mut Random::new(seed as u64), &draft);
        let text = plan_text(&bytes);
        let plan = plan::read(&text, &named).expect("it is a plan").plan;
        assert_eq!(plan.bytes(), bytes);
        let again = plan::read(&plan::text(&plan, &named.names), &named);
        assert_eq!(again.expect("it is a plan").plan, plan);
        assert_eq!(plan::from_digits(&plan.to_string()), Ok(plan));
    }
}

/// Words with a place in the notation may be names where no doubt is left.
#[test]
fn words_of_the_notation_as_names() {
    let text = "\
operations
  sum
  avg
users
  users
    rules
    data
  access under rules
data
  All [avg]
    access
    projection [sum]
    column
  columns under access
columns
  column: columns
  output: -
functions
  choose: avg
rules
  users exclude rules, data, [access All exclude access, projection, condition projection] => forbid
  data, [access access exclude columns] => [{}] or [{avg}]
";
    let named = built(text);
    assert_eq!(show::text(&named.contents, &named.names), text);
    assert_eq!(named.contents.users, [0, 0, 0, 1]);
    assert_eq!(named.contents.rules[0].references.len(), 2);
    let plan = plan::read("column column\noutput\nchoose(0)\noutput 2", &named);
    let bytes = [1, 0, 0, 0, 1, 1, 0, 0, 2, 0, 0, 255, 4, 2, 0, 0];
    assert_eq!(plan.expect("it is a plan").plan.bytes(), bytes);
}

/// Names are refused for every book that differs from theirs in one byte, and for one block less.
#[test]
fn names_are_bound_to_every_byte() {
    let mut refused = 0;
    for (seed, draft) in drafts().enumerate() {
        let named = numbered(draft.bytes());
        let text = named.names.text(&named.book);
        let mut random = Random::new(seed as u64);
        for _ in 0..50 {
            let mut bytes = named.book.bytes().to_vec();
            let place = random.below(bytes.len());
            bytes[place] ^= 1 << random.below(8);
            let block = place / BLOCK * BLOCK;
            seal(&mut bytes[block..block + BLOCK]).expect("it is a block");
            match Book::new(bytes) {
                Ok(other) if other != named.book => {
                    assert!(Names::read(&text, &other).is_err());
                    refused += 1;
                }
                _ => (),
            }
        }
        if named.book.rule_count() > 0 {
            let bytes = named.book.bytes();
            let shorter = Book::new(&bytes[..bytes.len() - BLOCK]).expect("it is sound");
            assert!(Names::read(&text, &shorter).is_err());
        }
    }
    assert!(refused > 100, "{refused} changes leave a book");
}
