//! The action that a rule names: its byte in a book, its word in a policy.

/// What a rule says of data that it refers to. Access is the parent of the other two.
#[derive(Clone, Copy, Debug, PartialEq, Eq)]
pub enum RuleAction {
    /// They are put out.
    Projection,
    /// Something is decided by them.
    Condition,
    /// Either.
    Access,
}

impl RuleAction {
    /// The action of a byte; none for a byte that the engine refuses.
    pub fn of_byte(byte: u8) -> Option<RuleAction> {
        match byte {
            1 => Some(RuleAction::Projection),
            2 => Some(RuleAction::Condition),
            3 => Some(RuleAction::Access),
            _ => None,
        }
    }

    /// Its byte.
    pub fn byte(self) -> u8 {
        match self {
            RuleAction::Projection => 1,
            RuleAction::Condition => 2,
            RuleAction::Access => 3,
        }
    }

    /// The action of a word, if it is one.
    pub fn of_word(word: &str) -> Option<RuleAction> {
        match word {
            "projection" => Some(RuleAction::Projection),
            "condition" => Some(RuleAction::Condition),
            "access" => Some(RuleAction::Access),
            _ => None,
        }
    }

    /// Its word.
    pub fn word(self) -> &'static str {
        match self {
            RuleAction::Projection => "projection",
            RuleAction::Condition => "condition",
            RuleAction::Access => "access",
        }
    }
}

#[cfg(test)]
mod tests {
    use super::*;

    #[test]
    fn bytes_and_words_there_and_back() {
        for byte in 0..=255 {
            let back = RuleAction::of_byte(byte).map(RuleAction::byte);
            assert_eq!(back, (1..=3).contains(&byte).then_some(byte));
        }
        for word in ["projection", "condition", "access"] {
            assert_eq!(RuleAction::of_word(word).map(RuleAction::word), Some(word));
        }
        assert_eq!(RuleAction::of_word("Access"), None);
    }
}
