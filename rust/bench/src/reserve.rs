//! What Ask, Commit and Drop are given: plans that the user holds already, and a plan to ask about.

use crate::Input;
use books::records::{LEDGER, PLACES, WORDS};
use second::{Holds, Place, Tally};

/// A ledger, the plan that is asked about, and the places that the user has: the lowest, with the numbers
/// from 1 on and the same accesses in each.
pub struct Reserve {
    pub plan: Vec<u8>,
    pub ledger: Vec<u64>,
    pub taken: usize,
    pub words: [u64; WORDS],
}

impl Reserve {
    /// A plan that is held, in the last place: as much of the input's as passes, which the user holds in
    /// every other place too.
    pub fn held(input: &Input) -> Reserve {
        let plan = passing(input);
        let mut words = [0; WORDS];
        second::flows(&input.book, &plan, &mut words).expect("it is a plan");
        Reserve {
            plan,
            ledger: vec![0; LEDGER],
            taken: PLACES - 1,
            words,
        }
    }

    /// A plan that is declined: the input's, by a user who has had every access, so that most is judged.
    pub fn declined(input: &Input) -> Reserve {
        Reserve {
            plan: input.plan.clone(),
            ledger: vec![u64::MAX; LEDGER],
            ..Reserve::held(input)
        }
    }

    /// Eight plans that the user holds. The one in the last place is committed or dropped.
    pub fn full(input: &Input) -> Reserve {
        Reserve {
            taken: PLACES,
            ..Reserve::held(input)
        }
    }

    /// The number in the last place that is taken.
    pub fn number(&self) -> u32 {
        self.taken as u32
    }

    /// The hold record of the second implementation.
    pub fn holds(&self, user: u32) -> Holds {
        let mut holds = Holds::default();
        for (place, number) in holds.places[..self.taken].iter_mut().zip(1..) {
            *place = Place {
                user,
                number,
                words: self.words,
            };
        }
        holds
    }

    /// Is its plan held?
    pub fn is_held(&self, input: &Input) -> bool {
        let (mut tally, mut holds) = (Tally::default(), self.holds(input.user));
        let (book, ledger) = (&input.book, &self.ledger);
        let asked = second::ask(book, input.user, &self.plan, ledger, &mut tally, &mut holds);
        asked.expect("nothing is refused").number != 0
    }
}

/// The input's plan without its Choose, Output and Condition rows, and then each of them again where no rule is
/// broken with it. A column stands where one is missing.
fn passing(input: &Input) -> Vec<u8> {
    let rows = input.plan.chunks_exact(4);
    let quiet = |row: &[u8]| {
        if row[0] > 2 {
            [1, 0, 0, 0]
        } else {
            [row[0], row[1], row[2], row[3]]
        }
    };
    let mut plan: Vec<[u8; 4]> = rows.clone().map(quiet).collect();
    for (i, row) in rows.enumerate() {
        let before = plan[i];
        plan[i].copy_from_slice(row);
        if second::judge(&input.book, input.user, plan.as_flattened()) != Ok(0) {
            plan[i] = before;
        }
    }
    plan.concat()
}

#[cfg(test)]
mod tests {
    use super::*;
    use crate::{all, deep, For};

    /// The rows of the tables say so. In the chain without functions nothing passes that gives an access.
    #[test]
    fn held_and_declined() {
        let books = all().into_iter().chain(deep());
        for book in books.filter(|book| book.calls == For::All) {
            let input = Input::new(book.name, book.draft, 0..1);
            let (held, declined) = (Reserve::held(&input), Reserve::declined(&input));
            assert!(held.is_held(&input), "{}", input.name);
            assert!(!declined.is_held(&input), "{}", input.name);
            let gives = held.words != [0; WORDS];
            assert_eq!(gives, input.name != "blocked chain", "{}", input.name);
        }
    }
}
