//! Which rules are idle and why, and what breaks each other one alone, in the policy's names.

use crate::covering::{why_idle, WhyIdle};
use crate::json::Json;
use crate::named::NamedBook;
use crate::phrases::counted_list;
use crate::plan::accesses;
use crate::rule;
use pspec::{Access, Idleness, Plan, Refusal};
use std::io::{self, IsTerminal, Write};

/// What is said after a list of idle rules.
const ADVICE: &str = "\
An idle rule stops nothing that the other rules let through. Of two equal rules each is idle beside
the other, and only one may go: delete one idle rule, then ask again.";

/// What is said where several rules cover one.
const TOGETHER: &str = "
Of rules that cover another together none can be left out; other rules may cover it as well.";

/// What is found of a rule.
#[derive(Clone, Debug, PartialEq, Eq)]
pub struct RuleReport {
    /// Its number.
    pub number: usize,
    /// Its text.
    pub rule: String,
    /// Whether it is idle.
    pub found: Found,
}

/// Whether a rule is idle.
#[derive(Clone, Debug, PartialEq, Eq)]
pub enum Found {
    /// It is, and why.
    Idle(WhyIdle),
    /// It is not: this user and this plan break it alone.
    Needed {
        /// The user's name.
        user: String,
        /// The plan's accesses.
        accesses: Vec<Access>,
        /// The same in words, reference by reference.
        words: Vec<String>,
        /// The plan.
        plan: Plan,
    },
}

impl RuleReport {
    /// Is the rule idle?
    pub fn is_idle(&self) -> bool {
        matches!(self.found, Found::Idle(_))
    }

    fn is_covered_by_several(&self) -> bool {
        matches!(&self.found, Found::Idle(WhyIdle::Covered(rules)) if rules.len() > 1)
    }

    /// One line.
    pub fn text(&self) -> String {
        let found = match &self.found {
            Found::Idle(why) => format!("idle, {}", why.text()),
            Found::Needed { user, words, .. } => {
                let words = words.join(", ");
                format!("needed. {user} breaks it alone with: {words}")
            }
        };
        format!("rule {} ({}): {found}", self.number, self.rule)
    }
}

impl RuleReport {
    fn json(&self) -> Json {
        Json::Object(self.fields())
    }

    /// What is found, by name.
    pub fn fields(&self) -> Vec<(&'static str, Json)> {
        let mut fields = vec![
            ("number", Json::Number(self.number)),
            ("rule", Json::Text(self.rule.clone())),
            ("idle", Json::Bool(self.is_idle())),
        ];
        fields.extend(match &self.found {
            Found::Idle(why) => vec![
                ("unbreakable", Json::Bool(*why == WhyIdle::Unbreakable)),
                ("covered_by", Json::numbers(why.rules())),
            ],
            Found::Needed {
                user, words, plan, ..
            } => vec![
                ("user", Json::Text(user.clone())),
                ("accesses", Json::texts(words)),
                ("plan", Json::Text(plan.to_string())),
            ],
        });
        fields
    }
}

/// What is found of each rule, for scripts.
pub fn json(reports: &[RuleReport]) -> Json {
    let idle = reports.iter().filter(|report| report.is_idle());
    let idle = Json::list(idle, |report| Json::Number(report.number));
    let rules = Json::list(reports, RuleReport::json);
    Json::Object(vec![("rules", rules), ("idle", idle)])
}

/// What is found of one rule.
pub fn of_rule(named: &NamedBook, r: usize) -> Result<RuleReport, Refusal> {
    let found = match named.book.idle(r as u32)? {
        Idleness::Idle => Found::Idle(why_idle(&named.book, r)?),
        Idleness::Needed { user, plan } => Found::Needed {
            user: named.names.users[user as usize].clone(),
            accesses: named.book.flows(&plan)?.iter().collect(),
            words: accesses(&plan, named),
            plan,
        },
    };
    Ok(RuleReport {
        number: r,
        rule: rule::text(&named.contents.rules[r], &named.names),
        found,
    })
}

/// What is found of each rule, given out as it is found.
pub fn each(
    named: &NamedBook,
    mut found: impl FnMut(&RuleReport) -> io::Result<()>,
) -> io::Result<Vec<RuleReport>> {
    let count = named.contents.rules.len();
    let mut reports = Vec::new();
    for r in 0..count {
        start(&format!("rule {r} ({} of {count})", r + 1));
        let report = of_rule(named, r).map_err(io::Error::other)?;
        clear();
        found(&report)?;
        reports.push(report);
    }
    Ok(reports)
}

/// Writes one line a rule, then the idle rules; gives what was found.
pub fn write(named: &NamedBook, out: &mut dyn Write) -> io::Result<Vec<RuleReport>> {
    let reports = each(named, |report| writeln!(out, "{}", report.text()))?;
    writeln!(out, "{}", summary(&reports))?;
    Ok(reports)
}

/// The idle rules, and what to do about them.
fn summary(reports: &[RuleReport]) -> String {
    let idle = reports.iter().filter(|report| report.is_idle());
    let idle: Vec<String> = idle.map(|report| report.number.to_string()).collect();
    match (reports.is_empty(), idle.is_empty()) {
        (true, _) => "The book has no rules.".to_string(),
        (_, true) => "\nNo rule is idle.".to_string(),
        _ => {
            let several = reports.iter().any(RuleReport::is_covered_by_several);
            let together = if several { TOGETHER } else { "" };
            let idle = counted_list("rule", &idle);
            format!("\nIdle: {idle}.\n{ADVICE}{together}")
        }
    }
}

/// On a terminal, says what is being searched: a large book takes a while.
pub fn start(what: &str) {
    if io::stderr().is_terminal() {
        eprint!("\r{what} ...");
    }
}

/// On a terminal, takes back what was being searched.
pub fn clear() {
    if io::stderr().is_terminal() {
        eprint!("\r\x1b[K");
    }
}
