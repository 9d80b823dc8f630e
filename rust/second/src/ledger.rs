//! What users have already seen, and the counts beside it (document 02, N3, N8 and N10).

use crate::access::{Access, Action, ACTIONS};
use std::collections::BTreeSet;

/// "A ledger of 1,024 words of 64 bits"
pub const WORDS: usize = 1_024;
/// "holds 32 words for each user number, laid out as in Flows"
pub const WORDS_OF_A_USER: usize = 32;

/// The user numbers, by the words that a ledger holds for each.
pub const USERS: usize = WORDS / WORDS_OF_A_USER;

/// "The tally becomes one pair of counts for each user number" (N8), and "counts each user's dropped
/// plans too" (N10). The default is fresh.
#[derive(Clone, Copy, Debug, Default, PartialEq, Eq)]
pub struct Tally {
    /// The counts of each user number.
    pub users: [Counts; USERS],
}

/// How many plans of a user were admitted, how many declined, and how many dropped.
#[derive(Clone, Copy, Debug, Default, PartialEq, Eq)]
pub struct Counts {
    /// The plans admitted.
    pub admitted: u32,
    /// The plans declined.
    pub declined: u32,
    /// The plans dropped.
    pub dropped: u32,
}

impl Counts {
    /// "28 is now for an ask when that sum is 1,000,000 or more": "admitted + dropped + held + declined".
    pub fn are_full(&self, held: usize) -> bool {
        self.settled() + held as u64 + u64::from(self.declined) >= 1_000_000
    }

    /// "A new hold's number is 1 + its user's admitted + dropped + held"
    pub fn next_number(&self, held: usize) -> u64 {
        1 + self.settled() + held as u64
    }

    fn settled(&self) -> u64 {
        u64::from(self.admitted) + u64::from(self.dropped)
    }
}

/// One more, but "a count at its top value stays there".
pub fn raise(count: &mut u32) {
    *count = count.saturating_add(1);
}

/// "word 16 × s + k"
fn word(access: &Access) -> usize {
    let s = match access.action {
        Action::Projection => 0,
        Action::Condition => 1,
    };
    16 * s + usize::from(access.operation)
}

/// The accesses that 32 words hold: each that a bit stands for, whatever the book.
pub fn accesses(words: &[u64]) -> BTreeSet<Access> {
    let mut found = BTreeSet::new();
    for action in ACTIONS {
        for leaf in 0..64 {
            let all = (0..16).map(|operation| Access {
                action,
                leaf,
                operation,
            });
            found.extend(all.filter(|a| words[word(a)] / 2u64.pow(a.leaf as u32) % 2 == 1));
        }
    }
    found
}

/// Writes accesses to 32 words: "bit d of word 16 × s + k is set exactly when (s, d, k) is an
/// access, s being 0 for projection, 1 for condition".
pub fn write(accesses: &BTreeSet<Access>, words: &mut [u64]) {
    words.fill(0);
    for access in accesses {
        words[word(access)] += 2u64.pow(access.leaf as u32);
    }
}

/// A user's words of a ledger.
pub fn words_of(ledger: &[u64], user: usize) -> &[u64] {
    &ledger[WORDS_OF_A_USER * user..WORDS_OF_A_USER * (user + 1)]
}

/// A user's words of a ledger, to be changed.
pub fn words_of_mut(ledger: &mut [u64], user: usize) -> &mut [u64] {
    &mut ledger[WORDS_OF_A_USER * user..WORDS_OF_A_USER * (user + 1)]
}

#[cfg(test)]
mod tests {
    use super::*;

    fn access(action: Action, leaf: usize, operation: u8) -> Access {
        Access {
            action,
            leaf,
            operation,
        }
    }

    #[test]
    fn places_of_accesses() {
        let all = BTreeSet::from([
            access(Action::Projection, 0, 0),
            access(Action::Projection, 63, 15),
            access(Action::Condition, 0, 15),
            access(Action::Condition, 4, 0),
            access(Action::Condition, 5, 0),
        ]);
        let mut words = [7; WORDS_OF_A_USER];
        write(&all, &mut words);
        let mut wanted = [0; WORDS_OF_A_USER];
        (wanted[0], wanted[15], wanted[16], wanted[31]) = (1, 1 << 63, 0b11_0000, 1);
        assert_eq!(words, wanted);
        assert_eq!(accesses(&words), all);
    }

    /// Any words come back, bits at no leaf among them.
    #[test]
    fn any_words_are_accesses() {
        let mut random = books::Random::new(8);
        for _ in 0..50 {
            let words: Vec<u64> = (0..WORDS_OF_A_USER).map(|_| random.bits()).collect();
            let mut again = [0; WORDS_OF_A_USER];
            write(&accesses(&words), &mut again);
            assert_eq!(words, again);
        }
    }

    /// Whichever count has it, and held plans count too.
    #[test]
    fn full_counts() {
        let full = |admitted, declined, dropped, held| {
            let counts = Counts {
                admitted,
                declined,
                dropped,
            };
            counts.are_full(held)
        };
        assert!(!full(0, 0, 0, 8) && !full(333_333, 333_333, 333_333, 0));
        assert!(full(333_333, 333_333, 333_333, 1) && full(333_334, 333_333, 333_333, 0));
        let most = u32::MAX;
        for [a, b, c] in [[0, 1, 2], [1, 2, 0], [2, 0, 1]] {
            let one = |counts: [u32; 3], held| full(counts[a], counts[b], counts[c], held);
            assert!(!one([999_999, 0, 0], 0) && !one([499_999, 499_999, 1], 0));
            assert!(one([1_000_000, 0, 0], 0) && one([999_999, 1, 0], 0));
            assert!(one([999_999, 0, 0], 1) && one([999_992, 0, 0], 8) && !one([999_991, 0, 0], 8));
            assert!(one([500_000, 500_000, 0], 0) && one([499_999, 499_999, 2], 0));
            // Sums that are small when cut to 32 bits.
            assert!(one([most, 1, 0], 0) && one([1 << 31, 1 << 31, 0], 0) && one([most, 0, 0], 8));
            assert!(one([most, most, most], 8) && one([most, most, 2], 0));
        }
    }

    /// Declined plans have no number.
    #[test]
    fn next_numbers() {
        let next = |admitted, declined, dropped, held| {
            let counts = Counts {
                admitted,
                declined,
                dropped,
            };
            counts.next_number(held)
        };
        assert_eq!(next(0, 0, 0, 0), 1);
        assert_eq!(next(0, 900, 0, 0), 1);
        assert_eq!(next(5, 900, 30, 7), 43);
        assert_eq!(next(999_999, 0, 0, 0), 1_000_000);
    }

    #[test]
    fn raised_counts() {
        for (before, after) in [
            (0, 1),
            (999_999, 1_000_000),
            (1_000_000, 1_000_001),
            (u32::MAX - 1, u32::MAX),
            (u32::MAX, u32::MAX),
        ] {
            let mut count = before;
            raise(&mut count);
            assert_eq!(count, after);
        }
    }
}
