//! What columns and functions a book lacks.

use crate::contents::{Contents, UNLABELLED};
use crate::covering::idle_beside;
use crate::hierarchy::leaves;
use crate::json::Json;
use crate::named::NamedBook;
use crate::rule;
use pspec::Refusal;

/// What is not labelled, and what no column or function gives.
#[derive(Clone, Debug, PartialEq, Eq)]
pub struct Labels {
    /// The columns without a label.
    pub columns: Vec<String>,
    /// The leaves of the data that no column has.
    pub leaves: Vec<String>,
    /// The operations that no function has.
    pub operations: Vec<String>,
    /// The rules that nothing can break for want of a column.
    pub rules: Vec<Unbreakable>,
}

/// A rule that nothing can break, as no column has what it speaks of.
#[derive(Clone, Debug, PartialEq, Eq)]
pub struct Unbreakable {
    /// Its number.
    pub number: usize,
    /// Its text.
    pub rule: String,
    /// The references of which no column has a leaf.
    pub missing: Vec<String>,
}

/// What a book lacks. The engine says which rules nothing can break: by themselves they are idle in
/// this book, and in the same book with a column for every leaf they are not.
pub fn labels(named: &NamedBook) -> Result<Labels, Refusal> {
    let (contents, names) = (&named.contents, &named.names);
    let every_leaf = leaves(&contents.parents(), 0, &[]);
    let full = Contents {
        columns: every_leaf.clone(),
        ..contents.clone()
    };
    let full = full.book()?;
    let mut rules = Vec::new();
    for r in 0..contents.rules.len() {
        if idle_beside(&named.book, r, &[])? && !idle_beside(&full, r, &[])? {
            rules.push(unbreakable(named, r));
        }
    }
    let without = |&leaf: &u8| !contents.columns.contains(&leaf);
    let free = |k: &u8| !contents.functions.contains(k);
    let unlabelled = names.columns.iter().zip(&contents.columns);
    let operations = 1..=names.operations.len() as u8;
    Ok(Labels {
        columns: unlabelled
            .filter(|(_, &label)| label == UNLABELLED)
            .map(|(name, _)| name.clone())
            .collect(),
        leaves: every_leaf
            .into_iter()
            .filter(without)
            .map(|leaf| names.data[usize::from(leaf)].clone())
            .collect(),
        operations: operations
            .filter(free)
            .map(|k| names.operation(k).to_string())
            .collect(),
        rules,
    })
}

fn unbreakable(named: &NamedBook, r: usize) -> Unbreakable {
    let NamedBook {
        contents, names, ..
    } = named;
    let rule = &contents.rules[r];
    let missing = rule.references.iter().filter(|reference| {
        let leaves = leaves(&contents.parents(), reference.category, &reference.excluded);
        !contents.columns.iter().any(|label| leaves.contains(label))
    });
    Unbreakable {
        number: r,
        rule: rule::text(rule, names),
        missing: missing
            .map(|reference| rule::reference_text(reference, names))
            .collect(),
    }
}

impl Labels {
    /// For scripts.
    pub fn json(&self) -> Json {
        let rule = |rule: &Unbreakable| {
            Json::Object(vec![
                ("number", Json::Number(rule.number)),
                ("rule", Json::Text(rule.rule.clone())),
                ("missing", Json::texts(&rule.missing)),
            ])
        };
        Json::Object(vec![
            ("columns", Json::texts(&self.columns)),
            ("leaves", Json::texts(&self.leaves)),
            ("operations", Json::texts(&self.operations)),
            ("rules", Json::list(&self.rules, rule)),
        ])
    }

    /// One line a list, and one a rule.
    pub fn text(&self) -> String {
        let lists = [
            ("Columns without a label", &self.columns),
            ("Leaves that no column has", &self.leaves),
            ("Operations that no function has", &self.operations),
        ];
        let mut text = String::new();
        for (what, list) in lists {
            text += &match list.as_slice() {
                [] => format!("{what}: none\n"),
                list => format!("{what}: {}\n", list.join(", ")),
            };
        }
        if self.rules.is_empty() {
            return text + "Rules that nothing can break for want of a column: none\n";
        }
        text += "Rules that nothing can break for want of a column:\n";
        for Unbreakable {
            number,
            rule,
            missing,
        } in &self.rules
        {
            let missing = missing.join(" and for ");
            text += &format!("  rule {number} ({rule}): none for {missing}\n");
        }
        text
    }
}
