//! What is said of a user and a plan.

use crate::{Refusal, Rules};
use std::fmt;

/// What Judge says of a user and a plan. Ask [`opens`](Verdict::opens), or match both cases.
///
/// It is no `Result` and turns into none: `is_ok` would be true for a plan that breaks rules. Nor into
/// an `Option`: `is_none` would be true for a plan that is refused, or else for one that breaks rules.
///
/// ```
/// # let book = pspec::Book::new(books::named::small_shop().bytes()).unwrap();
/// # let plan = pspec::Plan::new([1, 2, 0, 0, 4, 0, 0, 0]);
/// assert!(!book.judge(1, &plan).opens());
/// ```
/// ```compile_fail
/// # let book = pspec::Book::new(books::named::small_shop().bytes()).unwrap();
/// # let plan = pspec::Plan::new([1, 2, 0, 0, 4, 0, 0, 0]);
/// assert!(!book.judge(1, &plan).is_ok());
/// ```
/// ```compile_fail
/// # let book = pspec::Book::new(books::named::small_shop().bytes()).unwrap();
/// # let plan = pspec::Plan::new([1, 2, 0, 0, 4, 0, 0, 0]);
/// assert!(!book.judge(1, &plan).broken().is_ok());
/// ```
#[derive(Clone, Copy, Debug, PartialEq, Eq, Hash)]
#[must_use = "the gate opens only where `opens` says so"]
pub enum Verdict {
    /// The user and the plan are judged, which is not yet being let through: these rules they break,
    /// if any.
    Judged(Broken),
    /// The user or the plan is refused.
    Refused(Refusal),
}

impl Verdict {
    /// Does the gate open? Only for a user and a plan that are not refused and break no rule.
    pub fn opens(self) -> bool {
        match self {
            Verdict::Judged(broken) => broken.opens(),
            Verdict::Refused(_) => false,
        }
    }
}

/// The rules that a user and a plan break.
#[derive(Clone, Copy, Debug, PartialEq, Eq, Hash)]
#[must_use = "the gate opens only where `opens` says so"]
pub struct Broken {
    rules: Rules,
}

impl Broken {
    pub(crate) fn new(mask: u32) -> Broken {
        let rules = Rules::of(mask);
        Broken { rules }
    }

    /// Does the gate open? Only where no rule is broken.
    pub fn opens(self) -> bool {
        self.rules.is_empty()
    }

    /// The numbers of the broken rules, lowest first.
    pub fn rules(self) -> impl Iterator<Item = u32> {
        self.rules.numbers()
    }

    /// Is this rule broken?
    pub fn contains(self, rule: u32) -> bool {
        self.rules.contains(rule)
    }

    /// Bit r for rule r.
    pub fn mask(self) -> u32 {
        self.rules.mask()
    }
}

impl fmt::Display for Broken {
    fn fmt(&self, f: &mut fmt::Formatter<'_>) -> fmt::Result {
        self.rules.fmt(f)
    }
}

#[cfg(test)]
mod tests {
    use super::*;

    #[test]
    fn only_an_empty_set_opens() {
        assert!(Verdict::Judged(Broken::new(0)).opens());
        for r in 0..32 {
            let broken = Broken::new(1 << r);
            assert!(!broken.opens() && !Verdict::Judged(broken).opens());
            assert!(broken.rules().eq([r]) && broken.contains(r));
        }
        assert!(!Verdict::Refused(Refusal::NoUser).opens());
        assert!(!Broken::new(1).contains(32));
    }

    #[test]
    fn in_words() {
        assert_eq!(Broken::new(0b110).to_string(), "rules 1 and 2");
    }
}
