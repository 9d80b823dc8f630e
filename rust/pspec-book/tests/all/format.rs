//! `docs/FORMAT.md`: its bytes and answers are those of the engine.

use crate::common::{broken, built, file, text};
use pspec::{Asked, Book, Editing, Holds, Ledger, Plan, Refusal, Tally, BLOCK};
use pspec_book::named::NamedBook;
use pspec_book::phrases::joined;

fn small_shop() -> Vec<u8> {
    std::fs::read(file("crates/policyreport/data/small.book")).expect("it is there")
}

/// The cells of the tables' lines, without the marks of code.
fn cells(text: &str) -> impl Iterator<Item = Vec<String>> + '_ {
    let lines = text.lines().filter(|line| line.starts_with("| "));
    lines.map(|line| {
        let cells = line.trim_matches('|').split('|');
        cells
            .map(|cell| cell.trim().trim_matches('`').to_string())
            .collect()
    })
}

fn hexadecimal(text: &str) -> Vec<u8> {
    let digits: String = text.split_whitespace().collect();
    let pairs = (0..digits.len()).step_by(2);
    pairs
        .map(|i| u8::from_str_radix(&digits[i..i + 2], 16).expect("it is a byte"))
        .collect()
}

/// The bytes of a section's listing, block by block.
fn listed(section: &str) -> Vec<u8> {
    let format = text("docs/FORMAT.md");
    let (_, listing) = format.split_once(section).expect("it is there");
    let (_, listing) = listing.split_once("```text\n").expect("it is there");
    let (listing, _) = listing.split_once("```").expect("it ends");
    let mut bytes: Vec<u8> = Vec::new();
    for line in listing.lines() {
        if line.starts_with("block ") {
            bytes.resize(bytes.len() + BLOCK, 0);
            continue;
        }
        let (place, rest) = line.split_once(": ").expect("a place");
        let place: usize = place.trim().parse().expect("it is a number");
        let (fields, _) = rest.split_once("  ").expect("a comment");
        let start = bytes.len() - BLOCK + place;
        let fields = hexadecimal(fields);
        bytes[start..start + fields.len()].copy_from_slice(&fields);
    }
    bytes
}

#[test]
fn the_listing_is_the_small_shop() {
    assert_eq!(listed("## The small shop"), small_shop());
}

/// The block of kind 6 is the one of the example, and its categories support what is said below it.
#[test]
fn the_block_with_withdrawn_operations() {
    let NamedBook { book, contents, .. } = built(&text("examples/street.pspec"));
    let block = listed("## Operations that are withdrawn");
    assert_eq!(block, book.bytes()[BLOCK..2 * BLOCK]);
    let with = |mask: u16| {
        let categories = (0..7).filter(|&of| contents.supported(of) == mask);
        let categories: Vec<String> = categories.map(|of| of.to_string()).collect();
        joined(&categories, "and")
    };
    let (both, one) = (with(0b110), with(0b10));
    let said = format!(
        "Categories {both} support operations 1 and 2, categories {one} operation 1 alone."
    );
    assert!(text("docs/FORMAT.md").contains(&said), "{said}");
}

#[test]
fn the_plans_are_judged_so() {
    let book = Book::new(small_shop()).expect("it is sound");
    let format = text("docs/FORMAT.md");
    let (_, plans) = format.split_once("## The plan").expect("it is there");
    let (plans, _) = plans.split_once("**A rule is idle**").expect("it ends");
    let mut judged = 0;
    for row in cells(plans).filter(|row| row.len() == 4 && row[3] != "User 2") {
        let plan = Plan::new(hexadecimal(&row[1]));
        for (user, said) in [(1, &row[2]), (2, &row[3])] {
            let broken = broken(&book, user, &plan);
            let rules: Vec<String> = broken.rules().map(|r| r.to_string()).collect();
            let wanted = if rules.is_empty() {
                "none".to_string()
            } else {
                rules.join(", ")
            };
            assert_eq!(said, &wanted, "{}", row[0]);
            judged += 1;
        }
    }
    assert_eq!(judged, 20);
}

#[test]
fn the_tree_is_written_so() {
    let format = text("docs/FORMAT.md");
    let (_, tree) = format
        .split_once("**The lineage tree")
        .expect("it is there");
    let (words, tree) = tree.split_once("```text\n").expect("it is there");
    let (tree, _) = tree.split_once("```").expect("it ends");
    let (_, rows) = words.split_once("the plan `").expect("it is there");
    let (rows, words) = rows.split_once('`').expect("it ends");
    let book = Book::new(small_shop()).expect("it is sound");
    let drawn = book.tree(&Plan::new(hexadecimal(rows)), 3);
    let drawn = drawn.expect("it is a value row");
    assert_eq!(drawn.text(), tree);
    let words: Vec<&str> = words.split_whitespace().collect();
    let counts = format!("{} nodes and {} bytes:", drawn.node_count(), tree.len());
    assert!(words.join(" ").ends_with(&counts));
}

/// Where edits are spoken of.
const EDITS: &str = "**Rules that come and go.**";

/// What is kept between the days.
#[derive(Default)]
struct Kept {
    ledger: Ledger,
    tally: Tally,
    holds: Holds,
}

impl Kept {
    /// The reply to a call in words. It is given a plan to ask about, or else a number.
    fn reply(&mut self, book: &Book, user: u32, call: &str, given: &str) -> String {
        let Kept {
            ledger,
            tally,
            holds,
        } = self;
        let number = given.parse().unwrap_or(0);
        let reply = match call {
            "commit" => book.commit(user, number, ledger, tally, holds),
            "drop" => book.drop_hold(user, number, ledger, tally, holds),
            _ => {
                let plan = Plan::new(hexadecimal(given));
                match book.ask(user, &plan, ledger, tally, holds) {
                    Asked::Held { number } => return format!("held as {number}"),
                    Asked::Declined(broken) => return format!("declined by {broken}"),
                    Asked::Refused(refusal) => Err(refusal),
                }
            }
        };
        match reply {
            Ok(number) => number.to_string(),
            Err(refusal) => format!("refused {}", refusal.number()),
        }
    }

    fn counts(&self, user: u32) -> [String; 4] {
        let held = self.holds.iter().filter(|hold| hold.user == user).count();
        let tally = &self.tally;
        let counts = [
            tally.admitted(user),
            tally.declined(user),
            tally.dropped(user),
        ];
        let [admitted, declined, dropped] = counts.map(|count| count.to_string());
        [admitted, declined, dropped, held.to_string()]
    }
}

#[test]
fn the_days_are_replied_to_so() {
    let book = Book::new(small_shop()).expect("it is sound");
    let format = text("docs/FORMAT.md");
    let (_, days) = format.split_once("| Day |").expect("it is there");
    let (days, _) = days.split_once(EDITS).expect("it ends");
    let mut kept = Kept::default();
    let rows: Vec<Vec<String>> = cells(days).collect();
    for row in &rows {
        let user: u32 = row[1].parse().expect("it is a number");
        let (call, _) = row[2].split_once(':').unwrap_or((&row[2], ""));
        assert!(["ask", "commit", "drop"].contains(&call), "{call}");
        let reply = kept.reply(&book, user, call, &row[3]);
        assert_eq!(row[4], reply, "{}", row[0]);
        assert_eq!(row[5..], kept.counts(user), "{}", row[0]);
    }
    assert_eq!(rows.len(), 13);
}

/// The records are as long as the table says, and as they are stored.
#[test]
fn the_records_are_stored_so() {
    let format = text("docs/FORMAT.md");
    let (_, records) = format.split_once("| Record |").expect("it is there");
    let (records, _) = records.split_once("| Day |").expect("it ends");
    let lengths: Vec<String> = cells(records).map(|row| row[3].replace(',', "")).collect();
    let stored = [Tally::BYTES, Holds::BYTES].map(|bytes| bytes.to_string());
    assert_eq!(lengths, stored);
}

/// The numbers of a mask's rules, or 'none'.
fn numbers(mask: u32) -> String {
    let rules = (0..32).filter(|r| mask >> r & 1 == 1);
    let rules: Vec<String> = rules.map(|r| r.to_string()).collect();
    match rules.is_empty() {
        true => "none".to_string(),
        false => rules.join(", "),
    }
}

/// The parts of the record are as long as the table says, together as it is stored, and the edits below
/// them are replied to so.
#[test]
fn the_edits_are_replied_to_so() {
    let format = text("docs/FORMAT.md");
    let (_, edits) = format.split_once(EDITS).expect("it is there");
    let (parts, edits) = edits.split_once("| Edit |").expect("it is there");
    let (edits, _) = edits.split_once("**The lineage").expect("it ends");
    let bytes = |row: Vec<String>| row[3].replace(',', "").parse::<usize>().ok();
    let bytes: usize = cells(parts).filter_map(bytes).sum();
    assert_eq!(bytes, Editing::BYTES);
    let book = small_shop();
    let bare = Book::new(&book[..4 * BLOCK]).expect("it is sound");
    let mut editing = Editing::new(&bare);
    let rows: Vec<Vec<String>> = cells(edits).collect();
    for row in &rows {
        let number = row[1].trim_start_matches("block ").split(',').next();
        let number: u32 = number.and_then(|it| it.parse().ok()).expect("a number");
        let block = BLOCK * number as usize;
        let reply = match row[0].as_str() {
            "arrives" => editing.arrive(&book[block..block + BLOCK]),
            "leaves" => editing.depart(number),
            other => panic!("{other}"),
        };
        let reply = match reply {
            Ok(marks) => marks.mask().to_string(),
            Err(refusal) => format!("refused {}", refusal.number()),
        };
        let (rules, marks) = (editing.rule_count(), editing.marks().mask());
        assert_eq!(row[2..], [reply, rules.to_string(), numbers(marks)]);
    }
    assert_eq!(rows.len(), 10);
}

#[test]
fn every_refusal_is_explained() {
    let format = text("docs/FORMAT.md");
    let (_, refusals) = format.split_once("## The refusals").expect("it is there");
    let mut explained = Vec::new();
    for row in cells(refusals) {
        let Ok(number) = row[0].parse() else { continue };
        let name = format!("{:?}", Refusal::of(number, 0));
        assert_eq!(name.split(' ').next(), Some(row[1].as_str()));
        explained.push(number);
    }
    let known = |&number: &u32| !matches!(Refusal::of(number, 0), Refusal::Unknown { .. });
    assert!((0..256).filter(known).eq(explained));
}
