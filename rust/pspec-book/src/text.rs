//! Lines and words of a text.

use crate::mistake::{mistake, Mistake};
use crate::phrases::shown;

/// A line that says something.
#[derive(Clone, Copy, Debug, PartialEq, Eq)]
pub struct Line<'a> {
    /// Its number, from 1.
    pub number: usize,
    /// The spaces before its first word.
    pub indent: usize,
    /// Its text, without comment and without spaces at both ends.
    pub text: &'a str,
}

/// The lines of a text that hold more than a comment. A byte order mark before them is left out.
pub fn lines<'a>(text: &'a str, mistakes: &mut Vec<Mistake>) -> Vec<Line<'a>> {
    let text = text.strip_prefix('\u{feff}').unwrap_or(text);
    let mut lines = Vec::new();
    for (i, whole) in text.lines().enumerate() {
        let said = whole.split('#').next().unwrap_or("").trim_end();
        let text = said.trim_start();
        let margin = &said[..said.len() - text.len()];
        if text.is_empty() {
            continue;
        }
        let number = i + 1;
        // A tab has no fixed width, so it would leave open what stands below what.
        if margin.contains(|c| c != ' ') {
            let what = "found a tab before the first word; expected spaces";
            mistakes.push(mistake(number, what));
        }
        let indent = margin.len();
        lines.push(Line {
            number,
            indent,
            text,
        });
    }
    lines
}

/// A line at the left margin, and the indented lines below it.
#[derive(Clone, Debug, PartialEq, Eq)]
pub struct Section<'a> {
    /// The line at the margin.
    pub header: Line<'a>,
    /// The lines below it.
    pub lines: Vec<Line<'a>>,
}

/// The sections of a text.
pub fn sections<'a>(lines: &[Line<'a>]) -> Result<Vec<Section<'a>>, Mistake> {
    let mut sections: Vec<Section> = Vec::new();
    for &line in lines {
        match sections.last_mut() {
            _ if line.indent == 0 => sections.push(Section {
                header: line,
                lines: vec![],
            }),
            Some(section) => section.lines.push(line),
            None => {
                let what = format!(
                    "found '{}' before any section; \
                     expected the name of a section at the left margin",
                    shown(line.text)
                );
                return Err(mistake(line.number, what));
            }
        }
    }
    Ok(sections)
}

/// Words that a name can't be, as they have a place in a rule or a tree.
const RESERVED: [&str; 4] = ["exclude", "under", "or", "forbid"];

/// The most letters of a name.
const LETTERS: usize = 64;

/// May this word be a name?
pub fn is_name(word: &str) -> bool {
    let first = word.chars().next();
    first.is_some_and(|c| c.is_alphabetic() || c == '_')
        && word.chars().all(in_word)
        && !RESERVED.contains(&word)
}

fn in_word(c: char) -> bool {
    c.is_alphanumeric() || c == '_' || c == '-' || c == '.'
}

/// The words and marks of a line, read one after the other.
pub struct Cursor<'a> {
    line: usize,
    words: Vec<&'a str>,
    next: usize,
}

impl<'a> Cursor<'a> {
    /// From the first word of a line.
    pub fn new(line: Line<'a>) -> Cursor<'a> {
        Cursor {
            line: line.number,
            words: words(line.text),
            next: 0,
        }
    }

    /// The line's number.
    pub fn line(&self) -> usize {
        self.line
    }

    /// The word so many places further on.
    pub fn ahead(&self, places: usize) -> Option<&'a str> {
        self.words.get(self.next + places).copied()
    }

    /// Goes past a word or mark if it comes next.
    pub fn take(&mut self, word: &str) -> bool {
        let comes = self.ahead(0) == Some(word);
        self.next += usize::from(comes);
        comes
    }

    /// Goes past a word or mark, which must come next.
    pub fn expect(&mut self, word: &str) -> Result<(), Mistake> {
        match self.take(word) {
            true => Ok(()),
            false => Err(self.found(&format!("'{word}'"))),
        }
    }

    /// One or more of something, with a word or mark between them.
    pub fn separated<T>(
        &mut self,
        between: &str,
        mut one: impl FnMut(&mut Self) -> Result<T, Mistake>,
    ) -> Result<Vec<T>, Mistake> {
        let mut all = vec![one(self)?];
        while self.take(between) {
            all.push(one(self)?);
        }
        Ok(all)
    }

    /// The next word, which must be a name.
    pub fn name(&mut self, expected: &str) -> Result<&'a str, Mistake> {
        let name = self.ahead(0).filter(|word| is_name(word));
        let name = name.ok_or_else(|| self.found(expected))?;
        let letters = name.chars().count();
        if letters > LETTERS {
            let what = format!("found a name of {letters} letters; expected at most {LETTERS}");
            return Err(mistake(self.line, what));
        }
        self.next += 1;
        Ok(name)
    }

    /// The number of the next word in a list, which must have it.
    pub fn known(&mut self, list: &[String], expected: &str) -> Result<u8, Mistake> {
        let place = self.ahead(0).and_then(|word| place(list, word));
        let place = place.ok_or_else(|| self.found(expected))?;
        self.next += 1;
        Ok(place)
    }

    /// The next word, which must be a number.
    pub fn number(&mut self, expected: &str) -> Result<usize, Mistake> {
        let number = self.ahead(0).and_then(|word| word.parse().ok());
        let number = number.ok_or_else(|| self.found(expected))?;
        self.next += 1;
        Ok(number)
    }

    /// The line must end here.
    pub fn end(&self) -> Result<(), Mistake> {
        match self.ahead(0) {
            None => Ok(()),
            Some(_) => Err(self.found("the end of the line")),
        }
    }

    /// The mistake that something else was expected here.
    pub fn found(&self, expected: &str) -> Mistake {
        let found = match self.ahead(0) {
            Some(word) => format!("'{}'", shown(word)),
            None => "the end of the line".to_string(),
        };
        mistake(self.line, format!("found {found}; expected {expected}"))
    }
}

/// The number of a name in a list.
pub fn place(list: &[String], name: &str) -> Option<u8> {
    let place = list.iter().position(|known| known == name);
    place.map(|i| i as u8)
}

/// A word is as long as it can be; a mark is one character, but '=>' is one mark.
fn words(text: &str) -> Vec<&str> {
    let mut words = Vec::new();
    let mut rest = text.trim_start();
    while let Some(first) = rest.chars().next() {
        let length = match first {
            _ if rest.starts_with("=>") => 2,
            _ if in_word(first) => rest.find(|c| !in_word(c)).unwrap_or(rest.len()),
            _ => first.len_utf8(),
        };
        let (word, after) = rest.split_at(length);
        words.push(word);
        rest = after.trim_start();
    }
    words
}

#[cfg(test)]
mod tests {
    use super::*;

    #[test]
    fn words_and_marks() {
        assert_eq!(
            words("a, [b-c]=>{}"),
            ["a", ",", "[", "b-c", "]", "=>", "{", "}"]
        );
        assert_eq!(words("x: -"), ["x", ":", "-"]);
        assert_eq!(words("é=ü"), ["é", "=", "ü"]);
    }

    #[test]
    fn names() {
        assert!(is_name("Price") && is_name("_x.y-1") && is_name("column"));
        assert!(!is_name("") && !is_name("1a") && !is_name("-") && !is_name("or"));
    }
}
