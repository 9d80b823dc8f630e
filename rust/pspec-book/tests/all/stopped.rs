//! What breaks a rule, against the engine on random books and plans.

use crate::common::{broken, numbered};
use books::valid::{self, Size};
use books::{plans, Random};
use pspec::{Access, Action, Plan};
use pspec_book::breaking::breaking;
use pspec_book::hierarchy::leaves;
use pspec_book::lineage::traced;
use pspec_book::named::NamedBook;
use pspec_book::plan::PlanText;
use second::plan::Row;
use second::{path, reading};
use std::collections::BTreeSet;

const SIZES: [Size; 4] = [Size::Tiny, Size::Small, Size::Middle, Size::Large];

/// A random book and a sound plan for it, a line for each row.
fn case(seed: u64) -> (NamedBook, PlanText) {
    let mut random = Random::new(seed);
    let draft = valid::draft(&mut random, SIZES[seed as usize % 4]);
    let plan = Plan::new(plans::sound(&mut random, &draft));
    let lines = (1..=plan.rows().count()).collect();
    (numbered(draft.bytes()), PlanText { plan, lines })
}

/// Every access that the engine finds has a line that gives it and a column's line, and both are
/// such rows.
#[test]
fn every_access_comes_from_somewhere() {
    for seed in 0..800 {
        let (named, plan) = case(seed);
        let rows: Vec<[u8; 4]> = plan.plan.rows().collect();
        for of in traced(&plan, &named).expect("it is a plan") {
            assert!(!of.lines.is_empty());
            for (&sink, columns) in &of.lines {
                assert!((3..=5).contains(&rows[sink - 1][0]));
                for &column in columns {
                    let [kind, a, ..] = rows[column - 1];
                    assert_eq!(kind, 1);
                    assert_eq!(named.contents.columns[usize::from(a)], of.access.leaf);
                }
            }
        }
    }
}

/// Where each access of a plan comes from by the second implementation's paths: the access, the line
/// that gives it and the column.
fn origins(plan: &PlanText, named: &NamedBook) -> BTreeSet<(Access, usize, u8)> {
    let book = reading::read(named.book.bytes()).expect("it is sound");
    let rows = second::plan::read(plan.plan.bytes(), &book).expect("it is sound");
    let mut found = BTreeSet::new();
    for (row, line) in rows.iter().zip(&plan.lines) {
        let (action, of) = match *row {
            Row::Output(a) => (Action::Projection, a),
            Row::Condition(a) | Row::Choose(a, ..) => (Action::Condition, a),
            Row::Column(_) | Row::Apply(..) => continue,
        };
        for way in path::paths(&rows, of) {
            if let Some(leaf) = book.columns[way.column] {
                let access = Access {
                    action,
                    leaf: leaf as u8,
                    operation: path::operation(&book, &way, leaf),
                };
                found.insert((access, *line, way.column as u8));
            }
        }
    }
    found
}

/// The lines that give an access, and the columns that it comes from, are those of its paths.
#[test]
fn lines_are_those_of_paths() {
    let mut compared = 0;
    for seed in 0..800 {
        let (named, mut plan) = case(seed);
        // Few enough rows to go through all paths.
        plan.lines.truncate(14);
        let bytes = plan.plan.bytes();
        plan.plan = Plan::new(&bytes[..4 * plan.lines.len()]);
        let rows: Vec<[u8; 4]> = plan.plan.rows().collect();
        let mut found = BTreeSet::new();
        for of in traced(&plan, &named).expect("it is a plan") {
            for (&sink, columns) in &of.lines {
                found.extend(
                    columns
                        .iter()
                        .map(|&line| (of.access, sink, rows[line - 1][1])),
                );
            }
        }
        assert_eq!(found, origins(&plan, &named));
        compared += found.len();
    }
    assert!(compared > 1000, "{compared}");
}

/// A plan that gives these accesses and no others.
fn plan_of(accesses: &[Access], named: &NamedBook) -> Option<Plan> {
    let mut rows: Vec<[u8; 4]> = Vec::new();
    for access in accesses {
        let of = |list: &[u8], number| list.iter().position(|&one| one == number);
        let column = of(&named.contents.columns, access.leaf)? as u8;
        rows.push([1, column, 0, 0]);
        if access.operation > 0 {
            let function = of(&named.contents.functions, access.operation)? as u8;
            rows.push([2, function, rows.len() as u8 - 1, 255]);
        }
        rows.push([4 + access.action as u8, rows.len() as u8 - 1, 0, 0]);
    }
    (rows.len() <= 64).then(|| Plan::new(rows.concat()))
}

/// Something is found for each reference exactly when the engine says that the rule is broken; and
/// a plan of what is found breaks it as well.
#[test]
fn what_is_found_breaks_the_rule() {
    let (mut broken_rules, mut again) = (0, 0);
    for seed in 0..800 {
        let (named, plan) = case(seed);
        let accesses = named.book.flows(&plan.plan).expect("it is a plan");
        let accesses: Vec<Access> = accesses.iter().collect();
        for user in leaves(&named.contents.users, 0, &[]) {
            let judged = broken(&named.book, user.into(), &plan.plan);
            for (r, rule) in named.contents.rules.iter().enumerate() {
                let covered = leaves(&named.contents.users, rule.user, &rule.excluded);
                let found = breaking(rule, &named.contents, &accesses);
                let found_all = found.iter().all(|of| !of.is_empty());
                let breaks = judged.contains(r as u32);
                assert_eq!(breaks, found_all && covered.contains(&user));
                if let (true, Some(plan)) = (breaks, plan_of(&found.concat(), &named)) {
                    assert!(broken(&named.book, user.into(), &plan).contains(r as u32));
                    again += 1;
                }
                broken_rules += usize::from(breaks);
            }
        }
    }
    assert!(broken_rules > 1000 && again > 500, "{broken_rules} {again}");
}
