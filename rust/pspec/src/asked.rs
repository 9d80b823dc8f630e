//! What is said of a plan that is asked about.

use crate::{raw, Broken, Refusal};

/// What Ask says of a user's plan. None of the three cases opens the gate: that does
/// [`commit`](crate::Book::commit), for a plan that is held.
///
/// Like a [`Verdict`](crate::Verdict) it is no `Result` and turns into none: `is_ok` would be true for
/// a plan that is declined.
///
/// ```
/// # use pspec::{Book, Holds, Ledger, Plan, Refusal, Tally};
/// # let book = Book::new(books::named::small_shop().bytes())?;
/// # let price = Plan::new([1, 2, 0, 0, 4, 0, 0, 0]);
/// # let (mut ledger, mut tally, mut holds) = (Ledger::new(), Tally::new(), Holds::new());
/// let asked = book.ask(1, &price, &ledger, &mut tally, &mut holds);
/// assert!(!asked.is_held());
/// assert_eq!((asked.mask(), asked.number()), (0b10, 0)); // it breaks rule 1
/// // No plan is held under 0, so a declined one is not committed by mistake.
/// let committed = book.commit(1, asked.number(), &mut ledger, &mut tally, &mut holds);
/// assert_eq!(committed, Err(Refusal::NotHeld));
/// # Ok::<(), Refusal>(())
/// ```
/// ```compile_fail
/// # use pspec::{Book, Holds, Ledger, Plan, Tally};
/// # let book = Book::new(books::named::small_shop().bytes()).unwrap();
/// # let price = Plan::new([1, 2, 0, 0, 4, 0, 0, 0]);
/// # let (ledger, mut tally, mut holds) = (Ledger::new(), Tally::new(), Holds::new());
/// assert!(!book.ask(1, &price, &ledger, &mut tally, &mut holds).is_ok());
/// ```
#[derive(Clone, Copy, Debug, PartialEq, Eq, Hash)]
#[must_use = "a held plan keeps its place until it is committed or dropped"]
pub enum Asked {
    /// The plan breaks no rule together with the user's words and held plans. It is held under this
    /// number, which is not 0, until it is committed or dropped.
    Held {
        /// The number: 1 + the user's plans that were admitted, dropped or held before it.
        number: u32,
    },
    /// Together with the user's words and held plans the plan breaks these rules, at least one. It is
    /// counted, and nothing is held.
    Declined(Broken),
    /// The user, the plan, the counts or the places are refused, and nothing is changed.
    Refused(Refusal),
}

impl Asked {
    /// What an answer of [`raw::ask`] says.
    pub(crate) fn of(answer: u64) -> Asked {
        match (raw::held(answer), raw::value(answer)) {
            (Some(number), _) => Asked::Held { number },
            (None, Ok(mask)) => Asked::Declined(Broken::new(mask)),
            (None, Err(refusal)) => Asked::Refused(refusal),
        }
    }

    /// Is the plan held? Then it passes when it is committed.
    pub fn is_held(self) -> bool {
        matches!(self, Asked::Held { .. })
    }

    /// The number of the hold; 0, which no plan has, where the plan is declined or refused.
    pub fn number(self) -> u32 {
        match self {
            Asked::Held { number } => number,
            Asked::Declined(_) | Asked::Refused(_) => 0,
        }
    }

    /// The mask of the rules that are broken, bit r for rule r; 0 where the plan is held or refused.
    pub fn mask(self) -> u32 {
        match self {
            Asked::Declined(broken) => broken.mask(),
            Asked::Held { .. } | Asked::Refused(_) => 0,
        }
    }
}

#[cfg(test)]
mod tests {
    use super::*;

    #[test]
    fn masks_and_numbers() {
        for number in [1, 2, 1_000_000] {
            let held = Asked::of((1 << 32) + u64::from(number));
            assert_eq!(held, Asked::Held { number });
            let parts = (held.is_held(), held.mask(), held.number());
            assert_eq!(parts, (true, 0, number));
        }
        for mask in (0..32).map(|rule| 1 << rule).chain([0b111, u32::MAX]) {
            let declined = Asked::of(mask.into());
            assert_eq!(declined, Asked::Declined(Broken::new(mask)));
            let parts = (declined.is_held(), declined.mask(), declined.number());
            assert_eq!(parts, (false, mask, 0));
        }
        for (answer, refusal) in [
            (31 << 40, Refusal::PlacesFull),
            ((22 << 40) + (1 << 32), Refusal::FaultyRow { row: 1 }),
        ] {
            let refused = Asked::of(answer);
            assert_eq!(refused, Asked::Refused(refusal));
            let parts = (refused.is_held(), refused.mask(), refused.number());
            assert_eq!(parts, (false, 0, 0));
        }
    }
}
