//! Mistakes in a text.

use crate::phrases::counted;
use std::error::Error;
use std::fmt;

/// A mistake in a text. The file's name is put before it by whoever opened the file.
#[derive(Clone, Debug, PartialEq, Eq)]
pub struct Mistake {
    /// The number of the line, from 1.
    pub line: usize,
    /// What is wrong there.
    pub what: String,
}

impl fmt::Display for Mistake {
    fn fmt(&self, f: &mut fmt::Formatter<'_>) -> fmt::Result {
        write!(f, "{}: {}", self.line, self.what)
    }
}

impl Error for Mistake {}

/// A mistake on a line.
pub fn mistake(line: usize, what: impl Into<String>) -> Mistake {
    let what = what.into();
    Mistake { line, what }
}

/// The mistakes of a text, at least one: the first of each line, lowest line first.
#[derive(Clone, Debug, PartialEq, Eq)]
pub struct Mistakes(Vec<Mistake>);

/// The most mistakes that are shown.
const MOST_SHOWN: usize = 20;

impl Mistakes {
    /// These mistakes, or nothing where there are none.
    pub fn of(mut mistakes: Vec<Mistake>) -> Result<(), Mistakes> {
        mistakes.sort_by_key(|mistake| mistake.line);
        mistakes.dedup_by_key(|mistake| mistake.line);
        match mistakes.is_empty() {
            true => Ok(()),
            false => Err(Mistakes(mistakes)),
        }
    }

    /// Each of them.
    pub fn iter(&self) -> impl Iterator<Item = &Mistake> {
        self.0.iter()
    }

    /// One a line, after the file's name.
    pub fn in_file(&self, file: &str) -> String {
        let shown = self.0.iter().take(MOST_SHOWN);
        let mut lines: Vec<String> = shown.map(|mistake| format!("{file}:{mistake}")).collect();
        if self.0.len() > MOST_SHOWN {
            let more = counted(self.0.len() - MOST_SHOWN, "mistake");
            lines.push(format!("{file}: and {more} more"));
        }
        lines.join("\n")
    }
}

impl From<Mistake> for Mistakes {
    fn from(mistake: Mistake) -> Mistakes {
        Mistakes(vec![mistake])
    }
}

impl fmt::Display for Mistakes {
    fn fmt(&self, f: &mut fmt::Formatter<'_>) -> fmt::Result {
        let lines: Vec<String> = self.0.iter().map(Mistake::to_string).collect();
        f.write_str(&lines.join("\n"))
    }
}

impl Error for Mistakes {}
