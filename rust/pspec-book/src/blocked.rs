//! Which rules permit data that no operation can open, and which rules close them, in the policy's names.

use crate::contents::bits;
use crate::json::Json;
use crate::lineage;
use crate::named::NamedBook;
use crate::names::Names;
use crate::phrases::{counted_list, joined};
use crate::rule;
use crate::withdrawn::Withdrawn;
use crate::words::{self, How};
use pspec::{Access, Action, Blocking, Causes, Datum, Refusal};

/// What is said of blocked rules, below their list and on the page.
pub const ADVICE: &str = "\
A blocked rule permits data that can't be had: whatever operations the user chooses for them, some
rule of the book is broken. The first user and data are shown; there may be others. The rules that
are named close them by themselves, so a change of the rules that opens them changes at least one of
these. It may not be enough, as other rules may close them too. A function for an operation that
none had may open them as well, and so may an operation that is no longer withdrawn.";

/// What is found of a rule.
#[derive(Clone, Debug, PartialEq, Eq)]
pub struct RuleBlocking {
    /// Its number.
    pub number: usize,
    /// Its text.
    pub rule: String,
    /// Whether its data can be opened.
    pub found: Found,
}

/// Whether the data of a rule can be opened.
#[derive(Clone, Debug, PartialEq, Eq)]
pub enum Found {
    /// The rule has no restriction: it permits nothing.
    Forbids,
    /// They can, to every user that the rule covers.
    Open,
    /// Not to this user, these together.
    Closed {
        /// The user's name.
        user: String,
        /// One datum for each reference.
        data: Vec<Datum>,
        /// The few rules that close them, the rule itself among them, lowest first.
        closed_by: Vec<Closing>,
        /// Where the rule is alone and asks for operations that are withdrawn from the data: why none of
        /// those that it asks for can be had.
        reasons: Vec<String>,
    },
}

/// A rule that closes data.
#[derive(Clone, Debug, PartialEq, Eq)]
pub struct Closing {
    /// Its number.
    pub number: usize,
    /// What it does to them.
    pub how: How,
}

/// What is found of one rule.
pub fn of_rule(named: &NamedBook, r: usize) -> Result<RuleBlocking, Refusal> {
    let found = match named.book.blocked(r as u32) {
        Err(Refusal::RuleForbids) => Found::Forbids,
        Err(refusal) => return Err(refusal),
        Ok(Blocking::Open) => Found::Open,
        Ok(Blocking::Closed { user, data }) => {
            let closed_by = closed_by(named, r)?;
            Found::Closed {
                user: named.names.users[user as usize].clone(),
                reasons: match closed_by.len() {
                    1 => reasons(named, r, &data),
                    _ => vec![],
                },
                data,
                closed_by,
            }
        }
    };
    Ok(RuleBlocking {
        number: r,
        rule: rule::text(&named.contents.rules[r], &named.names),
        found,
    })
}

/// The few rules that close the data of a blocked rule, itself among them.
fn closed_by(named: &NamedBook, r: usize) -> Result<Vec<Closing>, Refusal> {
    let Causes::Few(others) = named.book.culprits(r as u32)? else {
        unreachable!("rule {r} is blocked");
    };
    let closes = |of: &usize| *of == r || others.contains(*of as u32);
    let rules = (0..named.contents.rules.len()).filter(closes);
    let closing = |number: usize| Closing {
        number,
        how: words::closing(&named.contents.rules[number], &named.names),
    };
    Ok(rules.map(closing).collect())
}

/// Why no operation that a rule asks for can be had of data that it closes alone: each is withdrawn from
/// them, or no function has it. Nothing where none is withdrawn.
fn reasons(named: &NamedBook, r: usize, data: &[Datum]) -> Vec<String> {
    let NamedBook {
        contents, names, ..
    } = named;
    let given = contents.functions.iter().fold(0, |mask, k| mask | 1 << k);
    let (mut withdrawn, mut missing) = (Withdrawn::default(), 0);
    for masks in &contents.rules[r].restrictions {
        for (mask, datum) in masks.iter().zip(data) {
            let can_be_had = given & contents.supported(datum.leaf);
            if mask & can_be_had == 0 {
                withdrawn.add(contents, datum.leaf, *mask);
                missing |= mask & !given;
            }
        }
    }
    let mut reasons = withdrawn.words(names);
    if !reasons.is_empty() && missing != 0 {
        let missing: Vec<String> = bits(missing)
            .map(|k| names.operation(k).to_string())
            .collect();
        reasons.push(format!("no function gives {}", joined(&missing, "or")));
    }
    reasons
}

/// Which rules close data, and what to do about it. A rule that asks for nothing is left out.
pub fn advice(closed_by: &[Closing], reasons: &[String]) -> String {
    // Alone it closes them for want of operations: its references share no leaf, so under a restriction
    // whose operations could all be had the data would be open.
    if let [Closing {
        number,
        how: How::Asks(each),
    }] = closed_by
    {
        return alone(*number, &each.join(", or "), reasons);
    }
    let does = |of: &Closing| Some((of.number.to_string(), of.how.words()?));
    let (numbers, does): (Vec<String>, Vec<String>) = closed_by.iter().filter_map(does).unzip();
    let rules = counted_list("rule", &numbers);
    let change = match does.as_slice() {
        [one] => format!("this one: it {one}"),
        does => {
            let each = numbers.iter().zip(does);
            let each: Vec<String> = each.map(|(n, does)| format!("rule {n} {does}")).collect();
            format!("one of these: {}", each.join("; "))
        }
    };
    format!("Closed by {rules}. To open them by the rules, change at least {change}.")
}

/// What is said of a rule that closes its data by itself, and of what it asks for.
fn alone(number: usize, asked: &str, reasons: &[String]) -> String {
    let rule = format!("Closed by rule {number} on its own");
    match reasons {
        [] => format!(
            "{rule}: the functions do not give what it asks for, {asked}. \
             Add one that does, or change the rule."
        ),
        reasons => format!(
            "{rule}: what it asks for, {asked}, can't be had of these data, as {}. \
             Change that, or the rule.",
            reasons.join(", and ")
        ),
    }
}

/// What is found of each rule.
pub fn each(named: &NamedBook) -> Result<Vec<RuleBlocking>, Refusal> {
    let rules = 0..named.contents.rules.len();
    rules.map(|r| of_rule(named, r)).collect()
}

impl RuleBlocking {
    /// Is there a user to whom data of the rule stay closed?
    pub fn is_blocked(&self) -> bool {
        matches!(self.found, Found::Closed { .. })
    }

    /// One line, and for a blocked rule another on what closes its data.
    pub fn text(&self, names: &Names) -> String {
        let found = match &self.found {
            Found::Forbids => "forbids".to_string(),
            Found::Open => "open".to_string(),
            Found::Closed {
                user,
                data,
                closed_by,
                reasons,
            } => {
                let data: Vec<String> = data.iter().map(|&of| datum_text(of, names)).collect();
                let (data, advice) = (data.join(", "), advice(closed_by, reasons));
                format!("blocked. Closed to {user}, whatever the operations: {data}\n  {advice}")
            }
        };
        format!("rule {} ({}): {found}", self.number, self.rule)
    }

    fn json(&self, names: &Names) -> Json {
        let mut fields = vec![
            ("number", Json::Number(self.number)),
            ("rule", Json::Text(self.rule.clone())),
            ("forbids", Json::Bool(self.found == Found::Forbids)),
            ("blocked", Json::Bool(self.is_blocked())),
        ];
        if let Found::Closed {
            user,
            data,
            closed_by,
            ..
        } = &self.found
        {
            let numbers = Json::list(closed_by, |of| Json::Number(of.number));
            fields.push(("user", Json::Text(user.clone())));
            fields.push(("data", Json::list(data, |&of| datum_json(of, names))));
            fields.push(("closed_by", numbers));
        }
        Json::Object(fields)
    }
}

/// A datum in words, as an access without operation.
fn datum_text(datum: Datum, names: &Names) -> String {
    let access = Access {
        action: datum.action,
        leaf: datum.leaf,
        operation: 0,
    };
    lineage::text(access, names)
}

fn datum_json(datum: Datum, names: &Names) -> Json {
    let action = match datum.action {
        Action::Projection => "projection",
        Action::Condition => "condition",
    };
    let leaf = names.data[usize::from(datum.leaf)].clone();
    Json::Object(vec![
        ("action", Json::Text(action.to_string())),
        ("leaf", Json::Text(leaf)),
    ])
}

/// What is found of each rule, for scripts.
pub fn json(rules: &[RuleBlocking], names: &Names) -> Json {
    let blocked = rules.iter().filter(|rule| rule.is_blocked());
    let blocked = Json::list(blocked, |rule| Json::Number(rule.number));
    let rules = Json::list(rules, |rule| rule.json(names));
    Json::Object(vec![("rules", rules), ("blocked", blocked)])
}

/// A line or two for each rule, then the blocked rules.
pub fn text(rules: &[RuleBlocking], names: &Names) -> String {
    let lines = rules.iter().map(|rule| rule.text(names) + "\n");
    let lines: String = lines.collect();
    let blocked = rules.iter().filter(|rule| rule.is_blocked());
    let blocked: Vec<String> = blocked.map(|rule| rule.number.to_string()).collect();
    match (rules.is_empty(), blocked.is_empty()) {
        (true, _) => "The book has no rules.\n".to_string(),
        (_, true) => format!("{lines}\nNo rule is blocked.\n"),
        _ => {
            let blocked = counted_list("rule", &blocked);
            format!("{lines}\nBlocked: {blocked}.\n{ADVICE}\n")
        }
    }
}
