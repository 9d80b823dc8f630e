//! What a call leaves of its records, and lists that go by what the second implementation replies.

use crate::answer::{self, Answer};
use crate::engine::{Engine, Search, Second};
use books::histories::{Call, Kept};
use books::records::Records;
use books::Case;

/// What an engine leaves of a call's records.
pub fn left(engine: &dyn Engine, case: &Case) -> Records {
    let mut after = case.clone();
    // Its answer was compared before.
    answer::of(engine, &mut after);
    after.records().cloned().unwrap_or_else(Records::fresh)
}

/// Records with one book, kept by the second implementation.
pub struct BySecond {
    book: Vec<u8>,
    records: Records,
}

impl Kept for BySecond {
    fn fresh(book: &[u8]) -> BySecond {
        BySecond {
            book: book.to_vec(),
            records: Records::fresh(),
        }
    }

    fn answer(&mut self, call: &Call) -> Option<u32> {
        let second = Second {
            search: Search::Skipping(0),
        };
        let mut case = call.with(&self.book, &self.records);
        let answer = answer::of(&second, &mut case);
        case.records()
            .into_iter()
            .for_each(|records| self.records = records.clone());
        match answer {
            Answer::Held(number) | Answer::Settled(number) => Some(number),
            _ => None,
        }
    }
}
