//! Calls with all that they are given, and rounds of them about one book.

use crate::change;
use crate::change_withdrawn;
use crate::draft::{Draft, BLOCK};
use crate::edits::{self, Arrive, Depart, Record};
use crate::numbers;
use crate::plans;
use crate::random::Random;
use crate::records::Records;
use crate::reserve::{self, Ask, Settle};
use crate::trees::{self, Tree};
use crate::valid::{self, Size};

/// One call.
#[derive(Clone, Debug, PartialEq, Eq)]
pub enum Case {
    /// The book check.
    Check {
        /// The book.
        book: Vec<u8>,
    },
    /// Seal.
    Seal {
        /// The block.
        block: Vec<u8>,
    },
    /// Flows.
    Flows {
        /// The book.
        book: Vec<u8>,
        /// The plan.
        plan: Vec<u8>,
        /// The buffer of words as it is before.
        words: Vec<u64>,
    },
    /// Judge.
    Judge {
        /// The book.
        book: Vec<u8>,
        /// The user's number.
        user: u32,
        /// The plan.
        plan: Vec<u8>,
    },
    /// Idle.
    Idle {
        /// The book.
        book: Vec<u8>,
        /// The rule's number.
        rule: u32,
        /// The buffer as it is before.
        buffer: Vec<u8>,
    },
    /// Blocked.
    Blocked {
        /// The book.
        book: Vec<u8>,
        /// The rule's number.
        rule: u32,
    },
    /// Culprits.
    Culprits {
        /// The book.
        book: Vec<u8>,
        /// The rule's number.
        rule: u32,
    },
    /// Ask, boxed as the records take more room than other calls.
    Ask(Box<Ask>),
    /// Commit.
    Commit(Box<Settle>),
    /// Drop.
    Drop(Box<Settle>),
    /// Tree.
    Tree(Tree),
    /// An arrival.
    Arrive(Arrive),
    /// A departure.
    Depart(Depart),
}

impl Case {
    /// The name of the call.
    pub fn call(&self) -> &'static str {
        match self {
            Case::Check { .. } => "check",
            Case::Seal { .. } => "seal",
            Case::Flows { .. } => "flows",
            Case::Judge { .. } => "judge",
            Case::Idle { .. } => "idle",
            Case::Blocked { .. } => "blocked",
            Case::Culprits { .. } => "culprits",
            Case::Ask(_) => "ask",
            Case::Commit(_) => "commit",
            Case::Drop(_) => "drop",
            Case::Tree(_) => "tree",
            Case::Arrive(_) => "arrive",
            Case::Depart(_) => "depart",
        }
    }

    /// The book that the call is given; Seal has none, and edits have theirs in a record.
    pub fn book(&self) -> Option<&[u8]> {
        match self {
            Case::Seal { .. } | Case::Arrive(_) | Case::Depart(_) => None,
            Case::Check { book }
            | Case::Flows { book, .. }
            | Case::Judge { book, .. }
            | Case::Idle { book, .. }
            | Case::Blocked { book, .. }
            | Case::Culprits { book, .. } => Some(book),
            Case::Ask(given) => Some(&given.book),
            Case::Commit(given) | Case::Drop(given) => Some(&given.book),
            Case::Tree(given) => Some(&given.book),
        }
    }

    /// The same call with another book.
    pub fn with_book(&self, other: Vec<u8>) -> Option<Case> {
        let mut case = self.clone();
        let book = match &mut case {
            Case::Seal { .. } | Case::Arrive(_) | Case::Depart(_) => return None,
            Case::Check { book }
            | Case::Flows { book, .. }
            | Case::Judge { book, .. }
            | Case::Idle { book, .. }
            | Case::Blocked { book, .. }
            | Case::Culprits { book, .. } => book,
            Case::Ask(given) => &mut given.book,
            Case::Commit(given) | Case::Drop(given) => &mut given.book,
            Case::Tree(given) => &mut given.book,
        };
        *book = other;
        Some(case)
    }

    /// The records that the call is given, if it is given some.
    pub fn records(&self) -> Option<&Records> {
        match self {
            Case::Ask(given) => Some(&given.records),
            Case::Commit(given) | Case::Drop(given) => Some(&given.records),
            _ => None,
        }
    }

    /// The same call with other records.
    pub fn with_records(&self, other: Records) -> Case {
        let mut case = self.clone();
        match &mut case {
            Case::Ask(given) => given.records = other,
            Case::Commit(given) | Case::Drop(given) => given.records = other,
            _ => {}
        }
        case
    }

    /// The record that an edit is given.
    pub fn edited(&self) -> Option<&Record> {
        match self {
            Case::Arrive(given) => Some(&given.record),
            Case::Depart(given) => Some(&given.record),
            _ => None,
        }
    }

    /// The same edit with another record.
    pub fn with_edited(&self, other: Record) -> Case {
        let mut case = self.clone();
        match &mut case {
            Case::Arrive(given) => given.record = other,
            Case::Depart(given) => given.record = other,
            _ => {}
        }
        case
    }
}

impl From<Ask> for Case {
    fn from(given: Ask) -> Case {
        Case::Ask(Box::new(given))
    }
}

/// The calls of one round: one book of the given size, sound or changed, and all thirteen calls.
pub fn round(random: &mut Random, size: Size) -> Vec<Case> {
    let draft = valid::draft(random, size);
    let book = book(random, &draft);
    let mut cases = vec![
        Case::Check { book: book.clone() },
        Case::Seal {
            block: block(random, &book),
        },
    ];
    for _ in 0..2 {
        cases.push(flows(random, &draft, &book));
        cases.push(judge(random, &draft, &book));
        cases.push(judge(random, &draft, &book));
        cases.push(reserve::ask(random, &draft, &book).into());
    }
    let rules = draft.rules.len().min(4);
    for _ in 0..rules.max(1) {
        cases.push(idle(random, &draft, &book));
    }
    cases.extend(closed(random, &draft, &book));
    cases.extend(trees(random, &draft, &book));
    cases.extend(changed(random, &draft));
    cases.extend(settles(random, &draft, &book));
    cases.extend(edits(random, &draft, &book));
    cases
}

/// The draft's bytes, three times in five as they are.
fn book(random: &mut Random, draft: &Draft) -> Vec<u8> {
    match random.below(10) {
        0..=5 => draft.bytes(),
        6 => {
            let mut book = draft.bytes();
            change::any_byte(random, &mut book);
            book
        }
        7 => two_changes(random, draft),
        _ => {
            let refusal = random.between(1, 9) as u32;
            change::aimed(random, draft, refusal)
        }
    }
}

/// The blocks of two changed books mixed, so that the order of refusals is tried.
fn two_changes(random: &mut Random, draft: &Draft) -> Vec<u8> {
    let [one, two] = [0, 1].map(|_| {
        let refusal = random.between(2, 9) as u32;
        change::aimed(random, draft, refusal)
    });
    let before = draft.bytes();
    let changed = |start: usize| one[start..start + BLOCK] != before[start..start + BLOCK];
    (0..before.len())
        .step_by(BLOCK)
        .flat_map(|start| {
            let from = if changed(start) { &one } else { &two };
            from[start..start + BLOCK].to_vec()
        })
        .collect()
}

/// A block of the book, random bytes, or a wrong length.
fn block(random: &mut Random, book: &[u8]) -> Vec<u8> {
    let length = match random.below(4) {
        0 => random.one(&[0, 1, 510, 511, 513, 1024]),
        _ => BLOCK,
    };
    match random.below(3) {
        0 if book.len() >= length => book[..length].to_vec(),
        1 => vec![255; length],
        _ => random.bytes(length),
    }
}

fn flows(random: &mut Random, draft: &Draft, book: &[u8]) -> Case {
    let words = match random.below(8) {
        0 => random.one(&[0, 1, 31, 33, 64, 1024]),
        _ => 32,
    };
    Case::Flows {
        book: book.to_vec(),
        plan: plans::any(random, draft),
        words: (0..words).map(|_| random.bits()).collect(),
    }
}

fn judge(random: &mut Random, draft: &Draft, book: &[u8]) -> Case {
    Case::Judge {
        book: book.to_vec(),
        user: numbers::user(random, draft),
        plan: plans::any(random, draft),
    }
}

fn idle(random: &mut Random, draft: &Draft, book: &[u8]) -> Case {
    let rule = match random.below(12) {
        0 => numbers::out_of_range(random, draft.rules.len()),
        _ => random.below(draft.rules.len()) as u32,
    };
    let length = match random.below(10) {
        0 => random.one(&[0, 1, 4, 8, 35]),
        1 => random.between(37, 100),
        _ => 36,
    };
    Case::Idle {
        book: book.to_vec(),
        rule,
        buffer: random.bytes(length),
    }
}

/// Blocked and Culprits of every rule, and of a number past them. A changed book is refused for all alike,
/// so one rule is enough.
fn closed(random: &mut Random, draft: &Draft, book: &[u8]) -> Vec<Case> {
    let count = draft.rules.len();
    let mut rules: Vec<u32> = match book == draft.bytes() {
        true => (0..count as u32).collect(),
        false => vec![random.below(count) as u32],
    };
    rules.push(numbers::out_of_range(random, count));
    let both = |rule: u32| {
        let book = book.to_vec();
        let blocked = Case::Blocked {
            book: book.clone(),
            rule,
        };
        [blocked, Case::Culprits { book, rule }]
    };
    rules.into_iter().flat_map(both).collect()
}

/// Calls of Tree. A changed book is refused for all alike. They have a generator of their own, so that the
/// other calls of a seed don't depend on how many there are.
fn trees(random: &Random, draft: &Draft, book: &[u8]) -> Vec<Case> {
    let mut own = Random::new(random.clone().bits());
    let count = if book == draft.bytes() { 4 } else { 1 };
    let tree = |_| Case::Tree(trees::any(&mut own, draft, book));
    (0..count).map(tree).collect()
}

/// Two calls of Commit and two of Drop. They have a generator of their own, so that the other calls of a seed
/// don't depend on them.
fn settles(random: &Random, draft: &Draft, book: &[u8]) -> [Case; 4] {
    let mut own = Random::new(random.clone().bits());
    let mut settle = || Box::new(reserve::settle(&mut own, draft, book));
    [
        Case::Commit(settle()),
        Case::Drop(settle()),
        Case::Commit(settle()),
        Case::Drop(settle()),
    ]
}

/// An arrival or a departure, the less often the more rules there are, as it asks Idle for each. They have a generator
/// of their own, so that the other calls of a seed don't depend on them.
fn edits(random: &Random, draft: &Draft, book: &[u8]) -> Option<Case> {
    let mut own = Random::new(random.clone().bits());
    if !own.chance(4, 4 + draft.rules.len()) {
        return None;
    }
    Some(match own.chance(1, 2) {
        true => Case::Arrive(edits::arrive(&mut own, draft, book)),
        false => Case::Depart(edits::depart(&mut own, draft, book)),
    })
}

/// Seal of block 1, and Check of the same book with changes that withdrawn operations brought: more of them
/// than a round has, as there are many, and one call is enough. They have a generator of their own, so that
/// the other calls of a seed don't depend on them.
fn changed(random: &Random, draft: &Draft) -> Vec<Case> {
    let mut own = Random::new(random.clone().bits());
    let mut block = draft.bytes()[BLOCK..2 * BLOCK].to_vec();
    block[510..].copy_from_slice(&own.bytes(2));
    let books = (0..3).filter_map(|_| change_withdrawn::any(&mut own, draft));
    let checks = books.map(|book| Case::Check { book });
    [Case::Seal { block }].into_iter().chain(checks).collect()
}

/// The size of the next round's book: mostly small, as most faults show on small books.
pub fn next_size(random: &mut Random) -> Size {
    random.one(&[
        Size::Tiny,
        Size::Tiny,
        Size::Tiny,
        Size::Small,
        Size::Small,
        Size::Small,
        Size::Middle,
        Size::Large,
    ])
}
