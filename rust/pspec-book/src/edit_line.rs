//! A line that the editor reads.

use crate::mistake::Mistake;
use crate::text::{Cursor, Line};

/// What a line asks of the editor.
#[derive(Clone, Copy, Debug, PartialEq, Eq)]
pub enum EditLine<'a> {
    /// Nothing: the line is empty or a comment.
    Nothing,
    /// To add a rule with this text, a comment behind it included.
    Add(&'a str),
    /// To delete a rule.
    Delete(usize),
    /// To list the rules with their marks.
    List,
    /// To say why a rule is idle, or what needs it.
    Why(usize),
    /// To write the policy back.
    Write,
    /// To leave.
    Quit,
    /// To say what can be asked.
    Help,
}

/// The words that a line starts with.
const WORDS: &str = "add, delete, list, why, write, quit or help";
const RULE: &str = "the number of a rule";

/// Reads a line, given its number.
pub fn read(number: usize, text: &str) -> Result<EditLine<'_>, Mistake> {
    let text = text.trim();
    let said = without_comment(number, text);
    let mut cursor = Cursor::new(said);
    let wrong = cursor.found(WORDS);
    let Some(word) = cursor.ahead(0) else {
        return Ok(EditLine::Nothing);
    };
    if word == "add" {
        return Ok(EditLine::Add(text[word.len()..].trim_start()));
    }
    cursor.take(word);
    let line = match word {
        "delete" => EditLine::Delete(cursor.number(RULE)?),
        "why" => EditLine::Why(cursor.number(RULE)?),
        "list" => EditLine::List,
        "write" => EditLine::Write,
        "quit" => EditLine::Quit,
        "help" => EditLine::Help,
        _ => return Err(wrong),
    };
    cursor.end()?;
    Ok(line)
}

/// The line of a text up to its comment.
pub fn without_comment(number: usize, text: &str) -> Line<'_> {
    let said = text.split('#').next().unwrap_or("");
    Line {
        number,
        indent: 0,
        text: said.trim(),
    }
}

#[cfg(test)]
mod tests {
    use super::*;

    #[test]
    fn lines() {
        let reads = |text, line| assert_eq!(read(1, text), Ok(line), "{text}");
        for nothing in ["", "  \t ", "# delete 1", "\r\n"] {
            reads(nothing, EditLine::Nothing);
        }
        reads(" add A, [b] => c # d \n", EditLine::Add("A, [b] => c # d"));
        reads("add", EditLine::Add(""));
        reads("add# x", EditLine::Add("# x"));
        reads("delete 31 # x", EditLine::Delete(31));
        reads("why  007", EditLine::Why(7));
        reads("list\r\n", EditLine::List);
        reads("write", EditLine::Write);
        reads("\tquit", EditLine::Quit);
        reads("help", EditLine::Help);
    }

    #[test]
    fn mistakes() {
        let says = |text: &str, what: &str| {
            let mistake = read(4, text).expect_err("it is no such line");
            assert_eq!(mistake.to_string(), format!("4: {what}"));
        };
        let word = "add, delete, list, why, write, quit or help";
        says("addition", &format!("found 'addition'; expected {word}"));
        says("Quit", &format!("found 'Quit'; expected {word}"));
        says("[", &format!("found '['; expected {word}"));
        let rule = "the number of a rule";
        says(
            "delete",
            &format!("found the end of the line; expected {rule}"),
        );
        says("why -1", &format!("found '-1'; expected {rule}"));
        let huge = "9".repeat(30);
        says(
            &format!("why {huge}"),
            &format!("found '{huge}'; expected {rule}"),
        );
        says("delete 1 2", "found '2'; expected the end of the line");
        says("list 1", "found '1'; expected the end of the line");
        says(
            "write x.pspec",
            "found 'x.pspec'; expected the end of the line",
        );
    }
}
