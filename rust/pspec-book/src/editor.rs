//! The editor: a policy's text, its book with the idle marks, and what each line does to them.

use crate::edit_answer::{Done, MarkedRule, NotDone};
use crate::edit_line::{self, without_comment, EditLine};
use crate::fault::Fault;
use crate::files::{self, read_text};
use crate::mistake::{mistake, Mistake};
use crate::named::NamedBook;
use crate::phrases::counted;
use crate::policy::{self, Lines, Policy};
use crate::policy_text::PolicyText;
use crate::{build, explain, report, rule};
use pspec::{Editing, Refusal, Rules};

/// A policy that is edited.
#[derive(Clone, Debug)]
pub struct Editor {
    path: String,
    /// The text as the file has it.
    written: String,
    text: PolicyText,
    named: NamedBook,
    record: Editing,
    unwritten: usize,
    /// Was the last line to leave, with edits that are not written?
    leaving: bool,
}

impl Editor {
    /// Opens a policy without mistakes, with the mark of each rule.
    pub fn open(path: &str) -> Result<Editor, Fault> {
        let written = read_text(path)?;
        let read = policy::read(&written).and_then(|policy| Ok((build::book(&policy)?, policy)));
        let (book, policy) = read.map_err(|mistakes| Fault::Refused(mistakes.in_file(path)))?;
        Ok(Editor {
            path: path.to_string(),
            text: PolicyText::new(&written, &policy.lines),
            written,
            record: Editing::new(&book),
            named: NamedBook::new(book, policy.names),
            unwritten: 0,
            leaving: false,
        })
    }

    /// The file, the number of rules and the idle ones.
    pub fn opened(&self) -> String {
        let rules = counted(self.rule_count(), "rule");
        format!("{}: {rules}. Idle: {}.", self.path, self.record.marks())
    }

    /// How many edits are not written.
    pub fn unwritten(&self) -> usize {
        self.unwritten
    }

    /// That edits are not written.
    pub fn lost(&self) -> String {
        format!(
            "{}: {} not written",
            self.path,
            counted(self.unwritten, "edit")
        )
    }

    /// Carries out a line, given its number.
    pub fn carry_out(&mut self, number: usize, line: impl AsRef<[u8]>) -> Result<Done, NotDone> {
        let again = std::mem::replace(&mut self.leaving, false);
        let text = std::str::from_utf8(line.as_ref());
        let text = text
            .map_err(|_| no_text(number))
            .map_err(NotDone::Mistake)?;
        match edit_line::read(number, text).map_err(NotDone::Mistake)? {
            EditLine::Nothing => Ok(Done::Nothing),
            EditLine::Add(rule) => self.add(number, rule),
            EditLine::Delete(rule) => self.delete(number, rule),
            EditLine::List => Ok(self.list()),
            EditLine::Why(rule) => self.why(number, rule),
            EditLine::Write => self.write(),
            EditLine::Quit => self.quit(number, again),
            EditLine::Help => Ok(Done::Helped),
        }
    }

    fn rule_count(&self) -> usize {
        self.record.rule_count() as usize
    }

    /// A rule with its mark as it is now.
    fn marked(&self, number: usize) -> MarkedRule {
        MarkedRule {
            number,
            rule: rule::text(&self.named.contents.rules[number], &self.named.names),
            idle: self.record.marks().contains(number as u32),
        }
    }

    fn add(&mut self, number: usize, text: &str) -> Result<Done, NotDone> {
        // An operation that the policy does not have gets a number in this copy alone.
        let mut policy = Policy {
            contents: self.named.contents.clone(),
            names: self.named.names.clone(),
            lines: Lines::default(),
        };
        let line = without_comment(number, text);
        let rule = rule::read(line, &mut policy.names).map_err(NotDone::Mistake)?;
        let before = self.record.marks();
        let marks = self.record.arrive(&rule.sealed()).map_err(|refusal| {
            NotDone::Refused(refusal, explain::arrival(refusal, &rule, number, &policy))
        })?;
        self.text.add(text);
        self.edited();
        let turned = |q: &usize| marked(marks, *q) && !marked(before, *q);
        let last = self.rule_count() - 1;
        Ok(Done::Added {
            rule: self.marked(last),
            marks,
            now_idle: (0..last).filter(turned).collect(),
        })
    }

    fn delete(&mut self, number: usize, out: usize) -> Result<Done, NotDone> {
        let before = self.record.marks();
        let marks = self.record.depart(in_engine(out));
        let marks = marks.map_err(|refusal| self.no_rule(refusal, number, out))?;
        let rule = MarkedRule {
            idle: marked(before, out),
            ..self.marked(out)
        };
        self.text.delete(out);
        self.edited();
        let earlier = |q: usize| if q < out { q } else { q + 1 };
        let turned = |q: &usize| !marked(marks, *q) && marked(before, earlier(*q));
        let left = self.rule_count();
        Ok(Done::Deleted {
            rule,
            left,
            marks,
            now_needed: (0..left).filter(turned).collect(),
        })
    }

    /// Takes over what the record has after an edit.
    fn edited(&mut self) {
        let book = self.record.book().expect("an edited book is accepted");
        self.named = NamedBook::new(book, self.named.names.clone());
        self.unwritten += 1;
    }

    fn list(&self) -> Done {
        Done::Listed {
            rules: (0..self.rule_count()).map(|r| self.marked(r)).collect(),
            unwritten: self.unwritten,
        }
    }

    fn why(&self, number: usize, rule: usize) -> Result<Done, NotDone> {
        let report = report::of_rule(&self.named, in_engine(rule) as usize);
        let report = report.map_err(|refusal| self.no_rule(refusal, number, rule))?;
        Ok(Done::Explained(report))
    }

    fn no_rule(&self, refusal: Refusal, number: usize, rule: usize) -> NotDone {
        let mistake = explain::no_rule(refusal, rule, number, self.rule_count());
        NotDone::Refused(refusal, mistake)
    }

    /// Writes the policy back, unless its file has changed since it was read or written.
    fn write(&mut self) -> Result<Done, NotDone> {
        let edits = self.unwritten;
        if edits > 0 {
            let text = self.text.to_string();
            self.put(&text).map_err(|fault| match fault {
                Fault::Usage(why) | Fault::File(why) | Fault::Refused(why) => NotDone::File(why),
            })?;
            self.written = text;
            self.unwritten = 0;
        }
        Ok(Done::Written {
            file: self.path.clone(),
            rules: self.rule_count(),
            edits,
        })
    }

    fn put(&self, text: &str) -> Result<(), Fault> {
        if read_text(&self.path)? != self.written {
            return Err(Fault::File(format!(
                "{}: found another text than was read; expected the same, so as not to lose what others wrote",
                self.path
            )));
        }
        files::replace(&self.path, text.as_bytes())
    }

    fn quit(&mut self, number: usize, again: bool) -> Result<Done, NotDone> {
        self.leaving = true;
        match self.unwritten {
            0 => Ok(Done::Left),
            _ if again => Ok(Done::Left),
            edits => Err(NotDone::Mistake(not_written(number, edits))),
        }
    }
}

fn no_text(line: usize) -> Mistake {
    mistake(line, "found a line that is no text; expected UTF-8")
}

fn not_written(line: usize, edits: usize) -> Mistake {
    let edits = counted(edits, "edit");
    mistake(
        line,
        format!(
            "found {edits} not written; expected 'write' before, or 'quit' again to leave without"
        ),
    )
}

fn marked(marks: Rules, rule: usize) -> bool {
    marks.contains(in_engine(rule))
}

/// The number as the engine takes it; one that it can't take is past every rule.
fn in_engine(rule: usize) -> u32 {
    u32::try_from(rule).unwrap_or(u32::MAX)
}
