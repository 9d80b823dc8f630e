//! Each mistake in a policy, with its line and its message.

use pspec_book::{build, policy};

const POLICY: &str = "\
users
  A
    B
    C
data
  All
    P [avg]
      Q
      R
    S
columns
  q: Q
functions
  f: avg
rules
  A, [access P] => [{avg}]
";

fn mistake_in(text: &str) -> String {
    let built = policy::read(text).and_then(|policy| build::book(&policy));
    built.expect_err("there is a mistake").to_string()
}

/// The policy with one part changed has this mistake.
fn says(from: &str, to: &str, message: &str) {
    assert!(POLICY.contains(from), "{from}");
    assert_eq!(mistake_in(&POLICY.replacen(from, to, 1)), message);
}

/// The policy with another rule has this mistake in it.
fn rule_says(rule: &str, message: &str) {
    let message = format!("16: {message}");
    says("A, [access P] => [{avg}]", rule, &message);
}

/// So many lines, each with another name.
fn many(count: usize, line: impl Fn(usize) -> String) -> String {
    (0..count).map(|i| format!("  {}\n", line(i))).collect()
}

#[test]
fn without_a_mistake() {
    let policy = policy::read(POLICY).expect("it is a policy");
    assert!(build::book(&policy).is_ok());
}

#[test]
fn sections() {
    let end = "found the end of the file; expected the section";
    assert_eq!(mistake_in(""), format!("1: {end} 'users'"));
    assert_eq!(mistake_in("users\n  A\n"), format!("2: {end} 'data'"));
    assert_eq!(
        mistake_in("  A\n"),
        "1: found 'A' before any section; expected the name of a section at the left margin"
    );
    let margin = "at the left margin; expected";
    says(
        "users",
        "user",
        &format!("1: found 'user' {margin} the section operations or users"),
    );
    says(
        "data",
        "columns",
        &format!("5: found 'columns' {margin} the section data"),
    );
    let open = "the section functions or rules";
    says(
        "functions",
        "users",
        &format!("13: found 'users' {margin} {open}"),
    );
    let twice = format!("{POLICY}rules\n");
    assert_eq!(
        mistake_in(&twice),
        format!("17: found 'rules' {margin} no further section")
    );
    says(
        "  A\n    B\n    C\n",
        "",
        "1: found 0 lines in the section 'users'; expected 1 to 32",
    );
}

#[test]
fn too_many_lines() {
    let users = many(32, |i| format!("  u{i}"));
    says(
        "    B\n    C\n",
        &users,
        "1: found 33 lines in the section 'users'; expected 1 to 32",
    );
    let columns = many(129, |i| format!("c{i}: -"));
    says(
        "  q: Q\n",
        &columns,
        "11: found 129 lines in the section 'columns'; expected 0 to 128",
    );
    let rules = many(33, |_| "A, [access P] => forbid".to_string());
    says(
        "  A, [access P] => [{avg}]\n",
        &rules,
        "15: found 33 lines in the section 'rules'; expected 0 to 32",
    );
    let functions = many(15, |i| format!("f{i}: o{i}"));
    says(
        "  f: avg\n",
        &functions,
        "28: found 16 operations in a book; expected at most 15",
    );
}

#[test]
fn trees() {
    says(
        "    B",
        "\tB",
        "3: found a tab before the first word; expected spaces",
    );
    says(
        "    C",
        "  C",
        "4: found 'C' beside the root; \
         expected it indented below another, or 'under' and a category",
    );
    says(
        "    C",
        "   C",
        "4: found 'C' after 3 spaces; expected as many as a category above it has",
    );
    says(
        "    C",
        "    C under A",
        "4: found 'under' after 4 spaces; expected 2, as for the root",
    );
    says(
        "    C",
        "  C under C",
        "4: found 'C'; expected a category of a line above",
    );
}

#[test]
fn names_in_trees() {
    says(
        "    C",
        "    B",
        "4: found 'B'; expected the name of a user category that no line above has",
    );
    says(
        "    C",
        "    C D",
        "4: found 'D'; expected 'under' or the end of the line",
    );
    says(
        "    C",
        "  C under A D",
        "4: found 'D'; expected the end of the line",
    );
    says(
        "    C",
        "    7",
        "4: found '7'; expected the name of a user category",
    );
    says(
        "    S",
        "    S avg",
        "10: found 'avg'; expected '[', 'withdraws', 'under' or the end of the line",
    );
    says("P [avg]", "P []", "7: found ']'; expected an operation");
    says(
        "P [avg]",
        "P [avg sum]",
        "7: found 'sum'; expected ',' or ']'",
    );
    says(
        "    S",
        "    or",
        "10: found 'or'; expected the name of a data category",
    );
}

#[test]
fn columns_and_functions() {
    says("q: Q", "q", "12: found the end of the line; expected ':'");
    says(
        "q: Q",
        "q: X",
        "12: found 'X'; expected a data category or '-'",
    );
    says(
        "q: Q",
        "q: - Q",
        "12: found 'Q'; expected the end of the line",
    );
    says(
        "f: avg",
        "f:",
        "14: found the end of the line; expected an operation",
    );
    says(
        "q: Q",
        "q: P",
        "12: refused 6: found the label P for the column q; \
         expected a category without others below it, and P has Q, R",
    );
}

#[test]
fn start_of_a_rule() {
    let known = "that the policy names";
    rule_says(
        "X, [access P] => forbid",
        &format!("found 'X'; expected a user category {known}"),
    );
    rule_says(
        "A [access P] => forbid",
        "found '['; expected ',' or 'exclude'",
    );
    rule_says(
        "A exclude B [access P] => forbid",
        "found '['; expected ','",
    );
    rule_says(
        "A exclude B, X, [access P] => forbid",
        &format!("found 'X'; expected a user category {known}, or '['"),
    );
    rule_says("A, access P => forbid", "found 'access'; expected '['");
    let actions = "projection, condition or access";
    rule_says(
        "A, [P] => forbid",
        &format!("found 'P'; expected {actions}"),
    );
    rule_says("A, [] => forbid", &format!("found ']'; expected {actions}"));
    rule_says(
        "A, [access P exclude Q, read S] => forbid",
        &format!("found 'read'; expected {actions}"),
    );
    rule_says(
        "A, [access P exclude Q, X] => forbid",
        &format!("found 'X'; expected a data category {known}"),
    );
    rule_says(
        "A, [access X] => forbid",
        &format!("found 'X'; expected a data category {known}"),
    );
}

#[test]
fn end_of_a_rule() {
    rule_says(
        "A, [access P => forbid",
        "found '=>'; expected ',', 'exclude' or ']'",
    );
    rule_says("A, [access P] forbid", "found 'forbid'; expected '=>'");
    rule_says(
        "A, [access P] =>",
        "found the end of the line; expected '[' or 'forbid'",
    );
    rule_says("A, [access P] => [avg]", "found 'avg'; expected '{'");
    rule_says("A, [access P] => [{avg]", "found ']'; expected '}'");
    rule_says(
        "A, [access P] => [{avg}",
        "found the end of the line; expected ']'",
    );
    rule_says(
        "A, [access P] => forbid it",
        "found 'it'; expected the end of the line",
    );
    rule_says(
        "A, [access P] => [{avg}, {}]",
        "found 2 sets of operations in a restriction; expected 1, one for each reference",
    );
}

#[test]
fn too_much_in_a_rule() {
    rule_says(
        "A exclude B, B, B, B, B, [access P] => forbid",
        "found 5 excluded users in a rule; expected at most 4",
    );
    rule_says(
        "A, [access P, access P, access P, access P] => forbid",
        "found 4 references in a rule; expected at most 3",
    );
    let excluded = ["Q"; 9].join(", ");
    rule_says(
        &format!("A, [access P exclude {excluded}] => forbid"),
        "found 9 excluded categories in a reference; expected at most 8",
    );
    let restrictions = ["[{}]"; 9].join(" or ");
    rule_says(
        &format!("A, [access P] => {restrictions}"),
        "found 9 restrictions in a rule; expected at most 8",
    );
}

#[test]
fn what_the_engine_refuses() {
    rule_says(
        "B exclude C, [access P] => forbid",
        "refused 7: found C excluded from B; expected a category below B",
    );
    rule_says(
        "A, [access P exclude P] => forbid",
        "refused 7: found P excluded from P; expected a category below P",
    );
    rule_says(
        "A, [access S, access P, projection All exclude Q, S] => forbid",
        "refused 8: found R under both P and All; expected references that share no leaf",
    );
    rule_says(
        "A, [access P] => [{avg}] or [{sum}]",
        "refused 9: found the operation sum for P; expected operations that it supports: avg",
    );
    rule_says(
        "A, [access S] => [{avg}]",
        "refused 9: found the operation avg for S; expected none, as S supports no operation",
    );
}

#[test]
fn all_mistakes_are_shown() {
    let policy = POLICY
        .replacen("    B\n", "\tB\n", 1)
        .replacen("P [avg]", "P [avg", 1)
        .replacen("q: Q", "q: X", 1)
        .replacen("f: avg", "f avg", 1)
        .replacen("A, [access P] => [{avg}]", "A, [read P] => forbid", 1);
    let expected = "3: found a tab before the first word; expected spaces\n\
                    7: found the end of the line; expected ',' or ']'\n\
                    12: found 'X'; expected a data category or '-'\n\
                    14: found 'avg'; expected ':'\n\
                    16: found 'read'; expected projection, condition or access";
    assert_eq!(mistake_in(&policy), expected);
}

#[test]
fn all_that_the_engine_refuses_is_shown() {
    let policy = POLICY.replacen("q: Q\n", "q: P\n  r: R\n  s: All\n", 1)
        + "  A, [access P exclude P] => forbid\n  B, [access S] => [{avg}]\n";
    let mistakes = mistake_in(&policy);
    let starts = [
        "12: refused 6: found the label P for the column q; ",
        "14: refused 6: found the label All for the column s; ",
        "19: refused 7: found P excluded from P; ",
        "20: refused 9: found the operation avg for S; ",
    ];
    let lines: Vec<&str> = mistakes.lines().collect();
    assert_eq!(lines.len(), 4, "{mistakes}");
    for (line, start) in lines.iter().zip(starts) {
        assert!(line.starts_with(start), "{line}");
    }
}

/// A mistake in a line of a tree is not repeated for the lines below it.
#[test]
fn one_mistake_is_one_line() {
    let bad = POLICY.replacen("  All\n", "  7all\n", 1);
    assert_eq!(
        mistake_in(&bad),
        "6: found '7all'; expected the name of a data category"
    );
    let deep = POLICY.replacen("      Q\n", "     Q\n", 1);
    assert_eq!(mistake_in(&deep).lines().count(), 1);
}

#[test]
fn more_than_fit_a_screen() {
    let columns: String = (0..100).map(|i| format!("  c{i}: X\n")).collect();
    let mistakes = policy::read(&POLICY.replacen("  q: Q\n", &columns, 1)).expect_err("100");
    let said = mistakes.in_file("x");
    assert_eq!(said.lines().count(), 21);
    assert!(said.ends_with("\nx: and 80 mistakes more"));
}

#[test]
fn letters_that_cannot_be_seen() {
    let marked = format!("\u{feff}{}", POLICY.replace('\n', "\r\n"));
    assert_eq!(policy::read(&marked), policy::read(POLICY));
    says(
        "q: Q",
        "\u{feff}q: Q",
        "12: found '\\u{feff}'; expected the name of a column",
    );
    says(
        "users",
        "use\u{200b}rs",
        "1: found 'use\\u{200b}rs' at the left margin; \
         expected the section operations or users",
    );
}

#[test]
fn long_names() {
    let most = "x".repeat(64);
    assert!(policy::read(&POLICY.replace('S', &most)).is_ok());
    says(
        "    S",
        &format!("    {}", "é".repeat(65)),
        "10: found a name of 65 letters; expected at most 64",
    );
    says(
        "q: Q",
        &format!("{}: Q", "q".repeat(100_000)),
        "12: found a name of 100000 letters; expected at most 64",
    );
    let long = mistake_in(&POLICY.replacen("q: Q", &format!("q: {}", "Q".repeat(99_999)), 1));
    assert!(long.len() < 200, "{long}");
}
