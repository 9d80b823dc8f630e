//! Words of users and plans: joined, judged, freed.

use crate::engine::Engine;
use books::records::{Holds, Records};
use second::book::Book;
use second::breaking;
use second::ledger::{accesses, words_of, WORDS_OF_A_USER};

/// Words of a user or of a plan.
pub type Words = [u64; WORDS_OF_A_USER];

/// The words of a plan's accesses, as the engine itself gives them.
pub fn flows(engine: &dyn Engine, book: &[u8], plan: &[u8]) -> Words {
    let mut words = [0; WORDS_OF_A_USER];
    // A plan that Flows refuses has none.
    let _ = engine.flows(book, plan, &mut words);
    words
}

/// Joins accesses to others.
pub fn join(words: &mut [u64], more: &[u64]) {
    let each = words.iter_mut().zip(more);
    each.for_each(|(word, more)| *word |= more);
}

/// The mask of the rules that a user breaks with accesses.
pub fn mask(book: &Book, user: usize, words: &[u64]) -> u32 {
    let broken = breaking::broken(book, user, &accesses(words));
    broken.into_iter().map(|rule| 1 << rule).sum()
}

/// A user's words joined with the plans that he holds.
pub fn seen_and_held(records: &Records, user: usize) -> Words {
    let mut all = [0; WORDS_OF_A_USER];
    join(&mut all, words_of(&records.ledger, user));
    for place in records.holds.of_user(user as u32) {
        join(&mut all, records.holds.words_of(place));
    }
    all
}

/// "a committed or dropped hold frees its place for the next"
pub fn free(holds: &mut Holds, place: usize) {
    (holds.users[place], holds.numbers[place]) = (0, 0);
    holds.words_of_mut(place).fill(0);
}
