//! Rules and accesses as sentences, for who does not read the notation.

use crate::action::RuleAction;
use crate::contents::{bits, Reference, Rule};
use crate::hierarchy::is_leaf;
use crate::named::NamedBook;
use crate::names::Names;
use crate::phrases::joined;
use crate::rule::reference_text;
use pspec::{Access, Action, Datum};

/// A rule as a sentence.
pub fn rule(rule: &Rule, named: &NamedBook) -> String {
    let names = &named.names;
    let together = match rule.references.len() {
        1 => "",
        _ => " in one query",
    };
    let does = format!("{}{together}", references(rule, names));
    let restrictions = rule.restrictions.iter();
    let each: Vec<String> = restrictions
        .map(|masks| restriction(rule, masks, names))
        .collect();
    let one = is_leaf(&named.contents.users, rule.user);
    match each.as_slice() {
        [] if one => format!("{} may not {does}.", user(rule, named)),
        [] => format!("No user of {} may {does}.", user(rule, named)),
        each => {
            let every = if one { "" } else { "Every user of " };
            let how = match each.iter().any(String::is_empty) {
                true => "in any way".to_string(),
                false => format!("only {}", each.join(", or ")),
            };
            format!("{every}{} may {does} {how}.", user(rule, named))
        }
    }
}

/// The user category, with those that are excluded.
fn user(rule: &Rule, named: &NamedBook) -> String {
    let name = |&i: &u8| named.names.users[usize::from(i)].clone();
    let excluded: Vec<String> = rule.excluded.iter().map(name).collect();
    match excluded.is_empty() {
        true => name(&rule.user),
        false => format!(
            "{} (without {})",
            name(&rule.user),
            joined(&excluded, "and")
        ),
    }
}

/// The references with their verbs, a verb once where the next reference has the same.
fn references(rule: &Rule, names: &Names) -> String {
    let mut groups: Vec<(&str, Vec<String>)> = Vec::new();
    for of in &rule.references {
        let verb = match of.action {
            RuleAction::Projection => "put out",
            RuleAction::Condition => "decide by",
            RuleAction::Access => "use",
        };
        add(&mut groups, verb, data(of, names));
    }
    grouped(&groups)
}

/// Adds what a verb is about, beside the last where that has the same verb.
fn add<'a>(groups: &mut Vec<(&'a str, Vec<String>)>, verb: &'a str, what: String) {
    match groups.last_mut() {
        Some((last, list)) if *last == verb => list.push(what),
        _ => groups.push((verb, vec![what])),
    }
}

fn grouped(groups: &[(&str, Vec<String>)]) -> String {
    let group = |(verb, list): &(&str, Vec<String>)| format!("{verb} {}", joined(list, "and"));
    let groups: Vec<String> = groups.iter().map(group).collect();
    joined(&groups, "and")
}

fn data(reference: &Reference, names: &Names) -> String {
    let name = |&i: &u8| names.data[usize::from(i)].clone();
    let excluded: Vec<String> = reference.excluded.iter().map(name).collect();
    match excluded.is_empty() {
        true => name(&reference.category),
        false => {
            let excluded = joined(&excluded, "and");
            format!("{} (without {excluded})", name(&reference.category))
        }
    }
}

/// What a restriction demands; empty where it demands nothing.
fn restriction(rule: &Rule, masks: &[u16; 3], names: &Names) -> String {
    let demand = |(category, operations): (String, String)| match rule.references.len() {
        1 => format!("under {operations}"),
        _ => format!("with {category} under {operations}"),
    };
    let demands: Vec<String> = demanded(rule, masks, names).map(demand).collect();
    joined(&demands, "and")
}

/// Each category of which a restriction demands something, and the operations.
fn demanded<'a>(
    rule: &'a Rule,
    masks: &'a [u16; 3],
    names: &'a Names,
) -> impl Iterator<Item = (String, String)> + 'a {
    let demanded = rule.references.iter().zip(masks);
    let demanded = demanded.filter(|(_, &mask)| mask != 0);
    demanded.map(|(of, &mask)| {
        let operations: Vec<String> = bits(mask).map(|k| names.operation(k).to_string()).collect();
        let category = names.data[usize::from(of.category)].clone();
        (category, joined(&operations, "or"))
    })
}

/// What a rule does to data that it helps to close.
#[derive(Clone, Debug, PartialEq, Eq)]
pub enum How {
    /// It forbids these references, whatever the operations.
    Forbids(Vec<String>),
    /// It asks for operations: what each of its restrictions asks for.
    Asks(Vec<String>),
    /// Some restriction of it asks for nothing, so that nobody can break it.
    Nothing,
}

impl How {
    /// In words, after the rule's number. There are none where it asks for nothing.
    pub fn words(&self) -> Option<String> {
        match self {
            How::Forbids(references) => Some(format!("forbids {}", references.join(" with "))),
            How::Asks(each) => Some(format!("asks for {}", each.join(", or for "))),
            How::Nothing => None,
        }
    }
}

/// What a rule does to data that it helps to close.
pub fn closing(rule: &Rule, names: &Names) -> How {
    let asked = |masks: &[u16; 3]| {
        let demand = |(category, operations)| format!("{operations} of {category}");
        let demands: Vec<String> = demanded(rule, masks, names).map(demand).collect();
        joined(&demands, "and")
    };
    let each: Vec<String> = rule.restrictions.iter().map(asked).collect();
    if each.is_empty() {
        let references = rule.references.iter();
        return How::Forbids(references.map(|of| reference_text(of, names)).collect());
    }
    match each.iter().any(String::is_empty) {
        true => How::Nothing,
        false => How::Asks(each),
    }
}

/// What a query does that uses these data, after 'can't'.
pub fn data_together(data: &[Datum], names: &Names) -> String {
    let mut groups: Vec<(&str, Vec<String>)> = Vec::new();
    for datum in data {
        let verb = match datum.action {
            Action::Projection => "put out",
            Action::Condition => "decide by",
        };
        let leaf = names.data[usize::from(datum.leaf)].clone();
        add(&mut groups, verb, leaf);
    }
    let together = match data.len() {
        1 => "",
        _ => " in one query",
    };
    format!("{}{together}", grouped(&groups))
}

/// What a query does that has these accesses.
pub fn accesses(accesses: &[Access], names: &Names) -> String {
    let mut groups: Vec<(&str, Vec<String>)> = Vec::new();
    for access in accesses {
        let verb = match access.action {
            Action::Projection => "puts out",
            Action::Condition => "decides by",
        };
        let leaf = &names.data[usize::from(access.leaf)];
        let what = match access.operation {
            0 => leaf.clone(),
            k => format!("{leaf} (under {})", names.operation(k)),
        };
        add(&mut groups, verb, what);
    }
    grouped(&groups)
}
