//! Refusals of the engine in the words of a policy or a plan.
//!
//! The engine names the block or row and the kind of fault. What exactly is at fault there is found
//! here by a second look, which decides nothing: if it finds nothing, the engine's own sentence
//! stands. Refusals 1 to 5 come from no policy file, as `policy` keeps its counts and parents in
//! bounds, and what a category owns apart from what it withdraws.

use crate::contents::{bits, Contents, Reference, Rule};
use crate::hierarchy::{children, leaves, under};
use crate::mistake::{mistake, Mistake, Mistakes};
use crate::named::NamedBook;
use crate::names::Names;
use crate::phrases::{counted, shown};
use crate::plan::{PlanText, NONE};
use crate::policy::Policy;
use crate::rule::operations;
use pspec::{Book, Plan, Refusal};
use std::collections::BTreeSet;

/// Why the engine refuses the book of a policy: it is asked about each column and each rule alone,
/// so that all are found.
pub fn book(refusal: Refusal, policy: &Policy) -> Mistakes {
    let columns = (0..policy.contents.columns.len()).filter_map(|i| column(i, policy));
    let rules = (0..policy.contents.rules.len()).filter_map(|r| rule(r, policy));
    let mistakes = Mistakes::of(columns.chain(rules).collect());
    let first = || mistake(policy.lines.sections[1], refusal.to_string()).into();
    mistakes.err().unwrap_or_else(first)
}

fn refused(line: usize, refusal: Refusal, found: Option<String>) -> Mistake {
    let sentence = refusal.sentence().to_string();
    let what = found.unwrap_or(sentence);
    mistake(line, format!("refused {}: {what}", refusal.number()))
}

/// The hierarchies of a policy, without columns and rules.
fn hierarchies(policy: &Policy) -> Contents {
    Contents {
        columns: vec![],
        functions: vec![],
        rules: vec![],
        ..policy.contents.clone()
    }
}

fn column(i: usize, policy: &Policy) -> Option<Mistake> {
    let label = policy.contents.columns[i];
    let alone = Contents {
        columns: vec![label],
        ..hierarchies(policy)
    };
    let refusal = alone.book().err()?;
    let (parents, names) = (policy.contents.parents(), &policy.names);
    let below = children(&parents, label);
    let found = (!below.is_empty()).then(|| {
        let (column, label) = (&names.columns[i], &names.data[usize::from(label)]);
        let below = named(&below, &names.data);
        format!(
            "found the label {label} for the column {column}; \
             expected a category without others below it, and {label} has {below}"
        )
    });
    Some(refused(policy.lines.columns[i], refusal, found))
}

fn rule(r: usize, policy: &Policy) -> Option<Mistake> {
    lone_rule(&policy.contents.rules[r], policy.lines.rules[r], policy)
}

/// Why the engine does not let the rule of a line arrive at the policy's book.
pub fn arrival(refusal: Refusal, rule: &Rule, line: usize, policy: &Policy) -> Mistake {
    let found = match refusal {
        Refusal::RulesFull => {
            let rules = counted(policy.contents.rules.len(), "rule");
            Some(format!("found {rules}; expected room for one more"))
        }
        _ => return lone_rule(rule, line, policy).unwrap_or(refused(line, refusal, None)),
    };
    refused(line, refusal, found)
}

/// Why the engine knows no rule of this number.
pub fn no_rule(refusal: Refusal, rule: usize, line: usize, rules: usize) -> Mistake {
    let found = (refusal == Refusal::NoRule).then(|| {
        let rules = counted(rules, "rule");
        format!("found rule {rule}; the policy has {rules}, counted from 0")
    });
    refused(line, refusal, found)
}

/// Why the engine refuses a rule beside the hierarchies alone.
fn lone_rule(rule: &Rule, line: usize, policy: &Policy) -> Option<Mistake> {
    let alone = Contents {
        rules: vec![rule.clone()],
        ..hierarchies(policy)
    };
    let refusal = alone.book().err()?;
    let found = match refusal {
        Refusal::RuleNumber { .. } => exclusion(rule, policy),
        Refusal::SharedLeaf { .. } => shared_leaf(rule, policy),
        Refusal::MaskOperation { .. } => unsupported(rule, policy),
        _ => None,
    };
    Some(refused(line, refusal, found))
}

fn exclusion(rule: &Rule, policy: &Policy) -> Option<String> {
    let (contents, names) = (&policy.contents, &policy.names);
    let user = not_below(&contents.users, rule.user, &rule.excluded, &names.users);
    let data = |reference: &Reference| {
        let excluded = &reference.excluded;
        not_below(
            &contents.parents(),
            reference.category,
            excluded,
            &names.data,
        )
    };
    user.or_else(|| rule.references.iter().find_map(data))
}

/// The first excluded category that is not below the one referred to.
fn not_below(parents: &[u8], of: u8, excluded: &[u8], names: &[String]) -> Option<String> {
    let proper = |x: u8| x != of && under(parents, x, of);
    let &wrong = excluded.iter().find(|&&x| !proper(x))?;
    let (wrong, of) = (&names[usize::from(wrong)], &names[usize::from(of)]);
    Some(format!(
        "found {wrong} excluded from {of}; expected a category below {of}"
    ))
}

/// The first two references with a leaf in common.
fn shared_leaf(rule: &Rule, policy: &Policy) -> Option<String> {
    let (parents, names) = (policy.contents.parents(), &policy.names.data);
    let sets = rule.references.iter();
    let sets: Vec<Vec<u8>> = sets
        .map(|reference| leaves(&parents, reference.category, &reference.excluded))
        .collect();
    for j in 1..sets.len() {
        for i in 0..j {
            let shared = sets[i].iter().find(|leaf| sets[j].contains(leaf));
            if let Some(&leaf) = shared {
                let name = |r: usize| &names[usize::from(rule.references[r].category)];
                let leaf = &names[usize::from(leaf)];
                return Some(format!(
                    "found {leaf} under both {} and {}; expected references that share no leaf",
                    name(i),
                    name(j)
                ));
            }
        }
    }
    None
}

/// The first operation that the category of its reference does not support.
fn unsupported(rule: &Rule, policy: &Policy) -> Option<String> {
    let (contents, names) = (&policy.contents, &policy.names);
    for masks in &rule.restrictions {
        for (mask, reference) in masks.iter().zip(&rule.references) {
            let supported = contents.supported(reference.category);
            if let Some(k) = bits(mask & !supported).next() {
                let category = &names.data[usize::from(reference.category)];
                let expected = match supported {
                    0 => format!("none, as {category} supports no operation"),
                    _ => format!(
                        "operations that it supports: {}",
                        operations(supported, names)
                    ),
                };
                let found = match contents.withdrawn_by(reference.category, k) {
                    None => names.operation(k).to_string(),
                    Some(by) => {
                        let by = &names.data[usize::from(by)];
                        format!("{}, which {by} withdraws,", names.operation(k))
                    }
                };
                return Some(format!(
                    "found the operation {found} for {category}; expected {expected}"
                ));
            }
        }
    }
    None
}

/// Why the engine refuses a plan, with the line at fault.
pub fn plan(refusal: Refusal, plan: &PlanText, contents: &Contents) -> Mistake {
    let count = plan.lines.len();
    let row = match refusal {
        Refusal::PlanLength => 64,
        _ => refusal.place() as usize,
    };
    let found = match refusal {
        Refusal::PlanLength => Some(format!("found {count} rows; expected at most 64")),
        Refusal::FaultyRow { .. } => wrong_row(plan, row, contents),
        _ => None,
    };
    let line = plan.lines.get(row).or(plan.lines.last());
    refused(line.copied().unwrap_or(1), refusal, found)
}

/// What is wrong with a row: its kind, its column or function, its zeros, or a row that it names.
fn wrong_row(plan: &PlanText, row: usize, contents: &Contents) -> Option<String> {
    let rows: Vec<[u8; 4]> = plan.plan.rows().collect();
    let past = |what: &str, number: u8, count: usize| {
        let past = usize::from(number) >= count;
        past.then(|| format!("found {what} {number}; the book has {count}"))
    };
    let zeros = |bytes: [u8; 2]| {
        let set = bytes != [0; 2];
        set.then(|| {
            format!(
                "found {} and {} at its end; expected 0 and 0",
                bytes[0], bytes[1]
            )
        })
    };
    let named = |named: &[u8]| {
        named
            .iter()
            .find_map(|&other| wrongly_named(other, row, &rows))
    };
    match *rows.get(row)? {
        [1, a, b, c] => past("column", a, contents.columns.len()).or_else(|| zeros([b, c])),
        [2, a, b, 255] => past("function", a, contents.functions.len()).or_else(|| named(&[b])),
        [2, a, b, c] => past("function", a, contents.functions.len()).or_else(|| named(&[b, c])),
        [3, a, b, c] => named(&[a, b, c]),
        [4 | 5, a, b, c] => named(&[a]).or_else(|| zeros([b, c])),
        [kind, ..] => Some(format!("found the kind {kind}; expected 1 to 5")),
    }
}

/// Why a row may not name another.
fn wrongly_named(other: u8, row: usize, rows: &[[u8; 4]]) -> Option<String> {
    let other = usize::from(other);
    if other >= row {
        return Some(format!(
            "found row {other} named by row {row}; expected a row above it"
        ));
    }
    let no_value = rows[other][0] > 3;
    no_value.then(|| {
        format!(
            "found row {other} named by row {row}, which gives no value; \
             expected a column, a function or a choice"
        )
    })
}

/// Why the engine gives no tree of a row, with its line or the one at fault. A row that the plan
/// does not have is missed at the plan's end.
pub fn tree(refusal: Refusal, row: u32, read: &PlanText, named: &NamedBook) -> Mistake {
    let number = row as usize;
    let found = match refusal {
        Refusal::NoValueRow => no_value(number, &read.plan),
        Refusal::TreeSize => too_long(number, &read.plan, &named.book),
        _ => return plan(refusal, read, &named.contents),
    };
    let line = read.lines.get(number).or(read.lines.last());
    refused(line.copied().unwrap_or(1), refusal, found)
}

/// What a row is that gives no value.
fn no_value(row: usize, plan: &Plan) -> Option<String> {
    let what = match plan.rows().nth(row) {
        None => {
            let rows = counted(plan.rows().count(), "row");
            return Some(format!(
                "found row {row}; the plan has {rows}, counted from 0"
            ));
        }
        Some([4, a, ..]) => format!("the output of row {a}"),
        Some([5, a, ..]) => format!("a condition on row {a}"),
        Some(_) => return None,
    };
    Some(format!(
        "found row {row}, {what}, which gives no value; \
         expected a column, a function or a choice"
    ))
}

/// That a tree is too long, and the highest row in it with one that is not.
fn too_long(row: usize, plan: &Plan, book: &Book) -> Option<String> {
    let rows: Vec<[u8; 4]> = plan.rows().collect();
    let mut reached = BTreeSet::from([row]);
    // A row names rows above it alone, so they come highest number first.
    while let Some(part) = reached.pop_last() {
        if book.tree(plan, part as u32).is_ok() {
            return Some(format!(
                "found more than 4,096 nodes in the tree of row {row}, as a row reached twice is \
                 written twice; expected at most 4,096. Row {part} is the highest row in it whose \
                 tree fits"
            ));
        }
        reached.extend(named_by(*rows.get(part)?));
    }
    None
}

/// The rows that a value is made of.
fn named_by(row: [u8; 4]) -> Vec<usize> {
    let named = match row {
        [2, _, b, NONE] => vec![b],
        [2, _, b, c] => vec![b, c],
        [3, a, b, c] => vec![a, b, c],
        _ => vec![],
    };
    named.into_iter().map(usize::from).collect()
}

/// That the book names no such user.
pub fn unknown_user(user: &str, named_book: &NamedBook) -> String {
    let leaves = leaves(&named_book.contents.users, 0, &[]);
    let users = named(&leaves, &named_book.names.users);
    let found = shown(user);
    format!("refused: found the user '{found}'; expected one of {users}")
}

/// Why the engine takes a category for no user.
pub fn no_user(category: u8, parents: &[u8], names: &Names) -> String {
    let below = named(&children(parents, category), &names.users);
    let name = &names.users[usize::from(category)];
    format!(
        "refused 20: found {name}; expected a user without others below it, and {name} has {below}"
    )
}

fn named(categories: &[u8], names: &[String]) -> String {
    let each: Vec<&str> = categories
        .iter()
        .map(|&i| names[usize::from(i)].as_str())
        .collect();
    each.join(", ")
}
