//! The policies in `examples`: their books, reports and plans.

use crate::common::{built, file, report_on, text};
use pspec_book::judge;

const SMALL_SHOP: &str = "examples/small-shop.pspec";
const TPC_DS: &str = "examples/tpc-ds.pspec";
const STREET: &str = "examples/street.pspec";

#[test]
fn small_shop_is_document_01s_book() {
    let named = built(&text(SMALL_SHOP));
    let book =
        std::fs::read(file("crates/policyreport/data/small.book")).expect("the book is there");
    assert_eq!(named.book.bytes(), book);
}

#[test]
fn reports_are_as_stored() {
    assert_eq!(
        report_on(&text(SMALL_SHOP)),
        text("examples/small-shop.report")
    );
    assert_eq!(report_on(&text(TPC_DS)), text("examples/tpc-ds.report"));
    assert_eq!(report_on(&text(STREET)), text("examples/street.report"));
}

/// The line of a report that lists the idle rules.
fn idle_after(from: &str, to: &str) -> String {
    let policy = text(TPC_DS);
    assert!(policy.contains(from));
    let report = report_on(&policy.replace(from, to));
    let line = report.lines().find(|line| line.starts_with("Idle: "));
    line.unwrap_or("none").to_string()
}

/// The changes that docs/EXAMPLE.md speaks of.
#[test]
fn one_word_makes_a_rule_idle() {
    assert_eq!(
        idle_after("projection Name", "access Name"),
        "Idle: rule 6."
    );
    assert_eq!(
        idle_after("projection Street", "access Street"),
        "Idle: rule 7."
    );
    assert_eq!(
        idle_after("ca_suite_number: Suite", "ca_suite_number: -"),
        "Idle: rule 7."
    );
}

const WIDE: &str = "  Analyst, [projection Birth, projection Address, \
                    projection QI exclude Name, Birth, Address] => forbid\n";

/// One of the three rules that the wide one stands for.
fn narrow(third: &str) -> String {
    format!("  Analyst, [projection Birth, projection Address, projection {third}] => forbid\n")
}

#[test]
fn three_rules_together_make_a_fourth_idle() {
    let with = format!("rules\n{WIDE}");
    let idle = "Idle: rules 0, 4, 5 and 6.";
    assert_eq!(idle_after("rules\n", &with), idle);
    let report = report_on(&text(TPC_DS).replace("rules\n", &with));
    let why = |r: usize| {
        report
            .lines()
            .nth(r)
            .and_then(|line| line.split("): ").nth(1))
    };
    assert_eq!(why(0), Some("idle, covered by rules 4, 5 and 6 together"));
    assert_eq!(why(5), Some("idle, covered by rule 0"));
    let three = ["Gender", "Marital", "Education"].map(narrow).concat();
    assert_eq!(idle_after(&three, WIDE), "none");
}

/// Why the changes that docs/EXAMPLE.md speaks of make rules idle.
#[test]
fn why_a_rule_is_idle() {
    let why = |from: &str, to: &str, r: usize| {
        let report = report_on(&text(TPC_DS).replace(from, to));
        let line = report.lines().nth(r).expect("it is there").to_string();
        line.split("): ").nth(1).expect("it is said").to_string()
    };
    let by_name = why("projection Name", "access Name", 6);
    assert_eq!(by_name, "idle, covered by rule 2");
    let by_suite = why("ca_suite_number: Suite", "ca_suite_number: -", 7);
    assert_eq!(by_suite, "idle, nothing can break it");
}

/// A function has another name than its operation, and the report names the operation.
#[test]
fn a_report_names_operations_and_conditions() {
    let policy = "users\n  U\ndata\n  D\n    P [avg, sum]\n    Q\n\
                  columns\n  p: P\n  q: Q\nfunctions\n  mean: avg\n  total: sum\nrules\n  \
                  U, [projection P] => [{avg, sum}]\n  \
                  U, [projection P, condition Q] => [{avg}, {}]\n";
    let report = report_on(policy);
    let lines: Vec<&str> = report.lines().collect();
    assert!(lines[0].ends_with(": needed. U breaks it alone with: output P"));
    assert!(lines[1].ends_with(": needed. U breaks it alone with: output sum(P), condition Q"));
    assert_eq!(lines[3], "No rule is idle.");
    let none = report_on("users\n  U\ndata\n  D\n");
    assert_eq!(none, "The book has no rules.\n");
}

fn judged(plan: &str) -> String {
    let named = built(&text(TPC_DS));
    let broken = judge::broken(&named, "Analyst", &text(plan)).expect("the plan is judged");
    judge::text("Analyst", &broken, &named.names)
}

/// The paper on the system says that such queries violate its rules 3 and 7, and that its own check
/// rejects `substr` where rule 10 asks for `truncate`.
#[test]
fn plans_break_the_rules_that_the_paper_names() {
    assert_eq!(
        judged("examples/tpc-ds-names.plan"),
        "Analyst breaks rule 2 (Analyst, [projection Name] => forbid)\n  \
         projection Name: output F_Name, line 6 from line 2; output L_Name, line 7 from line 3\n\
         Analyst breaks rule 6 (Analyst, [access F_Name, access L_Name] => forbid)\n  \
         access F_Name: output F_Name, line 6 from line 2\n  \
         access L_Name: output L_Name, line 7 from line 3\n"
    );
    assert_eq!(
        judged("examples/tpc-ds-zip.plan"),
        "Analyst breaks rule 9 (Analyst, [access Zip] => [{truncate}])\n  \
         access Zip: output Zip, line 5 from line 2\n"
    );
}
