//! The text of a policy, of which only the rules' lines change.

use crate::policy::{Lines, SECTIONS};
use std::fmt;

/// The text of a policy, and where its rules stand in it.
#[derive(Clone, Debug, PartialEq, Eq)]
pub struct PolicyText {
    /// Every line with its end.
    lines: Vec<String>,
    /// The line of the section of the rules, if there is one, counted from 0.
    section: Option<usize>,
    /// The line of each rule, counted from 0.
    rules: Vec<usize>,
    /// What ends a line.
    end: &'static str,
}

/// The spaces before the first rule of a policy.
const MARGIN: &str = "  ";

impl PolicyText {
    /// The text of a policy without mistakes, and the lines that were found in it.
    pub fn new(text: &str, found: &Lines) -> PolicyText {
        let lines: Vec<String> = text.split_inclusive('\n').map(str::to_string).collect();
        let ends_so = |line: &String| line.ends_with("\r\n");
        let end = match lines.first().is_some_and(ends_so) {
            true => "\r\n",
            false => "\n",
        };
        let [.., section] = found.sections;
        PolicyText {
            lines,
            section: section.checked_sub(1),
            rules: found.rules.iter().map(|line| line - 1).collect(),
            end,
        }
    }

    /// Adds the line of a rule behind the last one, as far to the right as that.
    pub fn add(&mut self, rule: &str) {
        let above = match (self.rules.last(), self.section) {
            (Some(&line), _) | (None, Some(line)) => line,
            (None, None) => self.add_section(),
        };
        let margin = match self.rules.is_empty() {
            true => MARGIN.to_string(),
            false => margin(&self.lines[above]).to_string(),
        };
        self.end_line(above);
        let line = format!("{margin}{rule}{}", self.end);
        self.lines.insert(above + 1, line);
        self.rules.push(above + 1);
    }

    /// Takes the line of a rule out.
    pub fn delete(&mut self, rule: usize) {
        let line = self.rules.remove(rule);
        self.lines.remove(line);
        // Rules stand in their order, so those behind it are below it.
        for below in &mut self.rules[rule..] {
            *below -= 1;
        }
    }

    /// Adds the line that starts the section of the rules, below all others; gives its place.
    fn add_section(&mut self) -> usize {
        let [.., section] = SECTIONS;
        let place = self.lines.len();
        if let Some(last) = place.checked_sub(1) {
            self.end_line(last);
        }
        self.lines.push(format!("{section}{}", self.end));
        self.section = Some(place);
        place
    }

    /// Ends a line that is the text's last and has no end yet.
    fn end_line(&mut self, line: usize) {
        if !self.lines[line].ends_with('\n') {
            self.lines[line].push_str(self.end);
        }
    }
}

/// The spaces before the first word of a line.
fn margin(line: &str) -> &str {
    &line[..line.len() - line.trim_start().len()]
}

impl fmt::Display for PolicyText {
    fn fmt(&self, f: &mut fmt::Formatter<'_>) -> fmt::Result {
        f.write_str(&self.lines.concat())
    }
}

#[cfg(test)]
mod tests {
    use super::*;
    use crate::policy;

    fn text(text: &str) -> PolicyText {
        let policy = policy::read(text).expect("it is a policy");
        PolicyText::new(text, &policy.lines)
    }

    const RULES: &str = "# Ours.\nusers\n  A\ndata\n  D # all\n\nrules # three\n   A, [access D] => forbid\n\n\
                         # The second.\n    A, [access D] => [{}] # idle\n  A, [condition D] => forbid\n\
                         # The end.\n";

    #[test]
    fn only_lines_of_rules_change() {
        let mut edited = text(RULES);
        assert_eq!(edited.to_string(), RULES);
        edited.delete(1);
        let without = RULES.replace("    A, [access D] => [{}] # idle\n", "");
        assert_eq!(edited.to_string(), without);
        edited.add("A, [access D] => [{}] # again");
        let last = "  A, [condition D] => forbid\n";
        let with = without.replace(last, &format!("{last}  A, [access D] => [{{}}] # again\n"));
        assert_eq!(edited.to_string(), with);
        for _ in 0..3 {
            edited.delete(0);
        }
        let none =
            "# Ours.\nusers\n  A\ndata\n  D # all\n\nrules # three\n\n# The second.\n# The end.\n";
        assert_eq!(edited.to_string(), none);
        edited.add("A, [access D] => [{}]");
        let one = none.replace("three\n", "three\n  A, [access D] => [{}]\n");
        assert_eq!(edited.to_string(), one);
    }

    #[test]
    fn a_text_without_the_section_or_the_last_end() {
        for (before, after) in [
            ("users\n A\ndata\n D", "users\n A\ndata\n D\nrules\n  R\n"),
            ("users\n A\ndata\n D\n", "users\n A\ndata\n D\nrules\n  R\n"),
            (
                "users\r\n A\r\ndata\r\n D\r\n",
                "users\r\n A\r\ndata\r\n D\r\nrules\r\n  R\r\n",
            ),
            (
                "users\n A\ndata\n D\nrules",
                "users\n A\ndata\n D\nrules\n  R\n",
            ),
            (
                "users\n A\ndata\n D\nrules\n A, [access D] => forbid",
                "users\n A\ndata\n D\nrules\n A, [access D] => forbid\n R\n",
            ),
        ] {
            let mut edited = text(before);
            edited.add("R");
            assert_eq!(edited.to_string(), after);
        }
    }
}
