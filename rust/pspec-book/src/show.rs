//! A book as the text of a policy file.

use crate::contents::{Category, Contents, UNLABELLED};
use crate::names::Names;
use crate::rule;

/// The text that `policy::read` reads as this contents.
pub fn text(contents: &Contents, names: &Names) -> String {
    let mut text = String::new();
    if !in_order(contents, names) {
        text += &section("operations", names.operations.clone());
    }
    let users = tree(&contents.users, &names.users, |_| String::new());
    text += &section("users", users);
    let data = tree(&contents.parents(), &names.data, |i| {
        data(contents, names, i)
    });
    text += &section("data", data);
    text += &section("columns", columns(contents, names));
    text += &section("functions", functions(contents, names));
    let rules = contents.rules.iter().map(|rule| rule::text(rule, names));
    text += &section("rules", rules.collect());
    text
}

/// Do these names number the operations as the text alone would?
fn in_order(contents: &Contents, names: &Names) -> bool {
    let all = 1..=names.operations.len() as u8;
    contents.operations().into_iter().eq(all)
}

fn section(header: &str, lines: Vec<String>) -> String {
    if lines.is_empty() {
        return String::new();
    }
    let lines: String = lines.iter().map(|line| format!("  {line}\n")).collect();
    format!("{header}\n{lines}")
}

/// A category stands below its parent where that is still open, else at the left with 'under'.
fn tree(parents: &[u8], names: &[String], beside: impl Fn(usize) -> String) -> Vec<String> {
    let mut path: Vec<usize> = Vec::new();
    let mut lines = Vec::new();
    for (i, &parent) in parents.iter().enumerate() {
        let parent = usize::from(parent);
        let open = path.iter().position(|&above| above == parent);
        path.truncate(open.map_or(0, |depth| depth + 1));
        let indent = "  ".repeat(path.len());
        let upper = match open {
            None if i > 0 => format!(" under {}", names[parent]),
            _ => String::new(),
        };
        lines.push(format!("{indent}{}{}{upper}", names[i], beside(i)));
        path.push(i);
    }
    lines
}

/// The operations that a category owns and those that it withdraws, as they stand beside its name.
pub fn operations(category: Category, names: &Names) -> String {
    let list = |before: &str, mask: u16| match mask {
        0 => String::new(),
        _ => format!("{before}[{}]", rule::operations(mask, names)),
    };
    list(" ", category.own) + &list(" withdraws ", category.withdrawn)
}

/// An empty list beside the root says that the block is of kind 6, where no other list does.
fn data(contents: &Contents, names: &Names, i: usize) -> String {
    let nothing = contents.data.iter().all(|of| of.withdrawn == 0);
    let empty = match i == 0 && contents.has_withdrawn && nothing {
        true => " withdraws []",
        false => "",
    };
    operations(contents.data[i], names) + empty
}

fn columns(contents: &Contents, names: &Names) -> Vec<String> {
    let label = |&label: &u8| match label {
        UNLABELLED => "-",
        _ => &names.data[usize::from(label)],
    };
    let labels = contents.columns.iter().map(label);
    let lines = names.columns.iter().zip(labels);
    lines
        .map(|(name, label)| format!("{name}: {label}"))
        .collect()
}

fn functions(contents: &Contents, names: &Names) -> Vec<String> {
    let operation = |&k: &u8| match k {
        0 => "-",
        _ => names.operation(k),
    };
    let operations = contents.functions.iter().map(operation);
    let lines = names.functions.iter().zip(operations);
    lines.map(|(name, k)| format!("{name}: {k}")).collect()
}
