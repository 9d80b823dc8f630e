//! Some of a book's rules.

use std::fmt;

/// Some of a book's rules, by their numbers.
#[derive(Clone, Copy, Debug, PartialEq, Eq, Hash)]
pub struct Rules {
    mask: u32,
}

impl Rules {
    pub(crate) fn of(mask: u32) -> Rules {
        Rules { mask }
    }

    /// Is there none?
    pub fn is_empty(self) -> bool {
        self.mask == 0
    }

    /// Their numbers, lowest first.
    pub fn numbers(self) -> impl Iterator<Item = u32> {
        (0..32).filter(move |&rule| self.contains(rule))
    }

    /// Is this rule among them?
    pub fn contains(self, rule: u32) -> bool {
        rule < 32 && self.mask >> rule & 1 == 1
    }

    /// Bit r for rule r.
    pub fn mask(self) -> u32 {
        self.mask
    }
}

impl fmt::Display for Rules {
    fn fmt(&self, f: &mut fmt::Formatter<'_>) -> fmt::Result {
        let rules: Vec<String> = self.numbers().map(|rule| rule.to_string()).collect();
        match rules.as_slice() {
            [] => f.write_str("no rule"),
            [one] => write!(f, "rule {one}"),
            [first @ .., last] => write!(f, "rules {} and {last}", first.join(", ")),
        }
    }
}

#[cfg(test)]
mod tests {
    use super::*;

    #[test]
    fn numbers_and_bits() {
        assert!(Rules::of(0).is_empty() && Rules::of(0).numbers().next().is_none());
        for r in 0..32 {
            let one = Rules::of(1 << r);
            assert!(!one.is_empty() && one.contains(r) && one.numbers().eq([r]));
        }
        assert!(!Rules::of(1).contains(32) && !Rules::of(u32::MAX).contains(u32::MAX));
    }

    #[test]
    fn in_words() {
        let said = |mask| Rules::of(mask).to_string();
        assert_eq!(said(0), "no rule");
        assert_eq!(said(1), "rule 0");
        assert_eq!(said(0b110), "rules 1 and 2");
        assert_eq!(said(1 << 31 | 0b110), "rules 1, 2 and 31");
    }
}
