//! What the editor answers to a line, in words and for scripts.

use crate::help::EDITING;
use crate::json::Json;
use crate::mistake::Mistake;
use crate::phrases::{counted, counted_list};
use crate::report::RuleReport;
use pspec::{Refusal, Rules};

/// What was done.
#[derive(Clone, Debug, PartialEq, Eq)]
pub enum Done {
    /// Nothing was asked.
    Nothing,
    /// A rule is added.
    Added {
        /// The rule, with its mark.
        rule: MarkedRule,
        /// The marks of all rules.
        marks: Rules,
        /// The rules that were needed before it.
        now_idle: Vec<usize>,
    },
    /// A rule is deleted.
    Deleted {
        /// The rule as it was, with its mark.
        rule: MarkedRule,
        /// The rules that are left.
        left: usize,
        /// Their marks.
        marks: Rules,
        /// Those of them that were idle before.
        now_needed: Vec<usize>,
    },
    /// The rules are listed.
    Listed {
        /// Each of them.
        rules: Vec<MarkedRule>,
        /// How many edits are not written.
        unwritten: usize,
    },
    /// A rule is explained.
    Explained(RuleReport),
    /// The policy is written back.
    Written {
        /// Its file.
        file: String,
        /// The rules in it.
        rules: usize,
        /// The edits that were written.
        edits: usize,
    },
    /// The editor is left.
    Left,
    /// What can be asked is said.
    Helped,
}

/// A rule with its mark.
#[derive(Clone, Debug, PartialEq, Eq)]
pub struct MarkedRule {
    /// Its number.
    pub number: usize,
    /// Its text.
    pub rule: String,
    /// Is it idle?
    pub idle: bool,
}

/// Why a line was not carried out.
#[derive(Clone, Debug, PartialEq, Eq)]
pub enum NotDone {
    /// The line has a mistake.
    Mistake(Mistake),
    /// The engine refuses the edit.
    Refused(Refusal, Mistake),
    /// The file can't be read or written.
    File(String),
}

impl MarkedRule {
    fn mark(&self) -> &'static str {
        match self.idle {
            true => "idle",
            false => "needed",
        }
    }

    fn fields(&self) -> Vec<(&'static str, Json)> {
        vec![
            ("number", Json::Number(self.number)),
            ("rule", Json::Text(self.rule.clone())),
            ("idle", Json::Bool(self.idle)),
        ]
    }
}

impl Done {
    /// In words; none where nothing is to be said.
    pub fn text(&self) -> Option<String> {
        match self {
            Done::Nothing | Done::Left => None,
            Done::Added { rule, now_idle, .. } => {
                let (number, mark) = (rule.number, rule.mark());
                let changed = changed("Idle now", now_idle, "No other mark changed.");
                Some(format!("Rule {number} is added: {mark}. {changed}"))
            }
            Done::Deleted {
                rule,
                left,
                now_needed,
                ..
            } => {
                let (number, moved) = (rule.number, moved(rule.number, *left));
                let changed = changed("Needed now", now_needed, "No mark changed.");
                Some(format!("Rule {number} is deleted{moved}. {changed}"))
            }
            Done::Listed { rules, .. } if rules.is_empty() => {
                Some("There are no rules.".to_string())
            }
            Done::Listed { rules, .. } => {
                let line =
                    |of: &MarkedRule| format!("rule {} ({}): {}", of.number, of.rule, of.mark());
                Some(rules.iter().map(line).collect::<Vec<_>>().join("\n"))
            }
            Done::Explained(report) => Some(report.text()),
            Done::Written { file, edits: 0, .. } => Some(format!("{file}: no edit to write")),
            Done::Written { file, rules, edits } => {
                let (edits, rules) = (counted(*edits, "edit"), counted(*rules, "rule"));
                Some(format!("{file}: {edits} written, {rules}"))
            }
            Done::Helped => Some(EDITING.to_string()),
        }
    }

    /// The command that was carried out; none where nothing was asked.
    fn command(&self) -> Option<&'static str> {
        match self {
            Done::Nothing => None,
            Done::Added { .. } => Some("add"),
            Done::Deleted { .. } => Some("delete"),
            Done::Listed { .. } => Some("list"),
            Done::Explained(_) => Some("why"),
            Done::Written { .. } => Some("write"),
            Done::Left => Some("quit"),
            Done::Helped => Some("help"),
        }
    }

    /// What came of it, by name.
    fn fields(&self) -> Vec<(&'static str, Json)> {
        match self {
            Done::Nothing | Done::Left => vec![],
            Done::Added {
                rule,
                marks,
                now_idle,
            } => edit_fields(rule, "now_idle", now_idle, *marks),
            Done::Deleted {
                rule,
                marks,
                now_needed,
                ..
            } => edit_fields(rule, "now_needed", now_needed, *marks),
            Done::Listed { rules, unwritten } => {
                let idle = rules.iter().filter(|rule| rule.idle);
                vec![
                    (
                        "rules",
                        Json::list(rules, |rule| Json::Object(rule.fields())),
                    ),
                    ("marks", Json::list(idle, |rule| Json::Number(rule.number))),
                    ("unwritten", Json::Number(*unwritten)),
                ]
            }
            Done::Explained(report) => report.fields(),
            Done::Written { file, rules, edits } => vec![
                ("file", Json::Text(file.clone())),
                ("rules", Json::Number(*rules)),
                ("edits", Json::Number(*edits)),
            ],
            Done::Helped => vec![("text", Json::Text(EDITING.to_string()))],
        }
    }
}

/// A rule that came or went, the rules whose marks turned, and all marks.
fn edit_fields(
    rule: &MarkedRule,
    turned: &'static str,
    rules: &[usize],
    marks: Rules,
) -> Vec<(&'static str, Json)> {
    let marks = Json::list(marks.numbers(), |rule| Json::Number(rule as usize));
    let mut fields = rule.fields();
    fields.extend([(turned, Json::numbers(rules)), ("marks", marks)]);
    fields
}

/// Which marks changed.
fn changed(mark: &str, rules: &[usize], none: &str) -> String {
    let numbers: Vec<String> = rules.iter().map(usize::to_string).collect();
    match numbers.is_empty() {
        true => none.to_string(),
        false => format!("{mark}: {}.", counted_list("rule", &numbers)),
    }
}

/// Which rules have other numbers after one is deleted.
fn moved(deleted: usize, left: usize) -> String {
    match left - deleted {
        0 => String::new(),
        1 => format!("; rule {left} is rule {deleted} now"),
        2 => format!(
            "; rules {} and {left} are rules {deleted} and {} now",
            deleted + 1,
            left - 1
        ),
        _ => format!(
            "; rules {} to {left} are rules {deleted} to {} now",
            deleted + 1,
            left - 1
        ),
    }
}

impl NotDone {
    /// In words.
    pub fn text(&self) -> String {
        match self {
            NotDone::Mistake(mistake) | NotDone::Refused(_, mistake) => format!("line {mistake}"),
            NotDone::File(why) => why.clone(),
        }
    }

    fn fields(&self) -> Vec<(&'static str, Json)> {
        let refused = match self {
            NotDone::Refused(refusal, _) => Json::Number(refusal.number() as usize),
            NotDone::Mistake(_) | NotDone::File(_) => Json::Null,
        };
        let why = match self {
            NotDone::Mistake(mistake) | NotDone::Refused(_, mistake) => mistake.what.clone(),
            NotDone::File(why) => why.clone(),
        };
        vec![("refused", refused), ("why", Json::Text(why))]
    }
}

/// For scripts: the number of the line, whether it was done, and the answer.
pub fn json(line: usize, answer: &Result<Done, NotDone>) -> Json {
    let mut all = vec![
        ("line", Json::Number(line)),
        ("done", Json::Bool(answer.is_ok())),
    ];
    match answer {
        Ok(done) => {
            let command = done.command().map(|word| Json::Text(word.to_string()));
            all.push(("command", command.unwrap_or(Json::Null)));
            all.extend(done.fields());
        }
        Err(why) => all.extend(why.fields()),
    }
    Json::Object(all)
}
