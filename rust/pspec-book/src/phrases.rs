//! Small parts of sentences: counts, lists, and texts that were found.

/// A number and a word, in the plural where it is not one.
pub fn counted(count: usize, word: &str) -> String {
    match count {
        1 => format!("1 {word}"),
        _ => format!("{count} {word}s"),
    }
}

/// A list of numbers after what they count, as 'lines 1, 2 and 4'.
pub fn counted_list(word: &str, numbers: &[String]) -> String {
    match numbers {
        [] => format!("no {word}"),
        [one] => format!("{word} {one}"),
        [first @ .., last] => format!("{word}s {} and {last}", first.join(", ")),
    }
}

/// The most letters of a word that are shown.
const LETTERS_SHOWN: usize = 80;

/// A found text as it is shown: cut where it is long, with a code for what can't be seen.
pub fn shown(found: &str) -> String {
    let letter = |c: char| match c {
        '\'' | '"' | '\\' => c.to_string(),
        _ => c.escape_debug().to_string(),
    };
    let mut shown: String = found.chars().take(LETTERS_SHOWN).map(letter).collect();
    if found.chars().nth(LETTERS_SHOWN).is_some() {
        shown += "...";
    }
    shown
}

/// Words with a last one after 'and' or 'or'.
pub fn joined(words: &[String], last: &str) -> String {
    match words {
        [] => String::new(),
        [one] => one.clone(),
        [first @ .., end] => format!("{} {last} {end}", first.join(", ")),
    }
}

#[cfg(test)]
mod tests {
    use super::*;

    #[test]
    fn what_is_found_is_shown() {
        assert_eq!(shown("a'b\u{200b}é"), "a'b\\u{200b}é");
        assert_eq!(shown(&"x".repeat(100_000)).len(), 83);
        assert_eq!(counted(1, "rule"), "1 rule");
        assert_eq!(counted(0, "rule"), "0 rules");
    }
}
