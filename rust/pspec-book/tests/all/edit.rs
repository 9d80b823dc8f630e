//! The editor: what it answers to its lines, the marks, and the policy that it writes.

use crate::common::{built, numbered, text};
use crate::running::{fed, folder, run, said, text_of};
use books::valid::{self, Size};
use books::Random;
use pspec::{Book, BLOCK};
use pspec_book::contents::Rule;
use pspec_book::edit::{self, Ended, Form, Outputs};
use pspec_book::edit_answer::Done;
use pspec_book::editor::Editor;
use pspec_book::named::NamedBook;
use pspec_book::{rule, show};
use std::fs;
use std::path::{Path, PathBuf};
use std::process::Command;

const SHOP: &str = "examples/small-shop.pspec";
/// The small shop's rule 1, and what is said of it.
const AVERAGE: &str = "Analyst, [access Price] => [{avg}]";

/// A folder with a policy.
fn with_policy(test: &str, policy: &str) -> PathBuf {
    let folder = folder(test);
    fs::write(folder.join("p.pspec"), policy).expect("it is written");
    folder
}

/// The editor on the policy of a folder, with these arguments more and these lines.
fn edited(folder: &Path, more: &[&str], lines: &[u8]) -> (i32, String, String) {
    let mut command = Command::new(env!("CARGO_BIN_EXE_pspec-book"));
    command.args(["edit", "p.pspec"]).args(more);
    said(fed(command.current_dir(folder), lines))
}

/// Answers to lines in words: the status, the answer and the complaint.
fn says(test: &str, policy: &str, lines: &str, wanted: (i32, &str, &str)) -> PathBuf {
    let folder = with_policy(test, policy);
    let (status, answer, complaint) = edited(&folder, &[], lines.as_bytes());
    assert_eq!((status, answer.as_str(), complaint.as_str()), wanted);
    folder
}

#[test]
fn rules_come_and_go() {
    let lines = "list\n# without the average\ndelete 1\n\nwhy 1\nadd Analyst,[access Price]=>[{avg}] # back\n\
                 why 0\nwrite\nlist\nquit\n";
    let answer = "p.pspec: 3 rules. Idle: rules 0 and 2.\n\
        rule 0 (Analyst, [projection Address, projection Price] => [{}, {avg, sum}]): idle\n\
        rule 1 (Analyst, [access Price] => [{avg}]): needed\n\
        rule 2 (Report, [projection Address, projection Price] => [{}, {avg}]): idle\n\
        Rule 1 is deleted; rule 2 is rule 1 now. Needed now: rules 0 and 1.\n\
        rule 1 (Report, [projection Address, projection Price] => [{}, {avg}]): needed. \
        Report breaks it alone with: output State, output sum(Price)\n\
        Rule 2 is added: needed. Idle now: rules 0 and 1.\n\
        rule 0 (Analyst, [projection Address, projection Price] => [{}, {avg, sum}]): idle, covered by rule 2\n\
        p.pspec: 2 edits written, 3 rules\n\
        rule 0 (Analyst, [projection Address, projection Price] => [{}, {avg, sum}]): idle\n\
        rule 1 (Report, [projection Address, projection Price] => [{}, {avg}]): idle\n\
        rule 2 (Analyst, [access Price] => [{avg}]): needed\n";
    let policy = text(SHOP);
    let folder = says("edit", &policy, lines, (0, answer, ""));
    let without = policy.replace(&format!("  {AVERAGE}\n"), "");
    let written = format!("{without}  Analyst,[access Price]=>[{{avg}}] # back\n");
    assert_eq!(text_of(&folder, "p.pspec"), written);
    let files = fs::read_dir(&folder).expect("it is there").count();
    assert_eq!(files, 1);
}

#[test]
fn a_line_with_a_mistake_changes_nothing() {
    let lines = b"add Bob, [access Price] => forbid\nadd\nadd Report, [access Price] => [{max}]\n\
                  add Report, [access Address, access City] => forbid\n\
                  add Report exclude Marketing, [access City] => forbid\ndelete 3\nwhy 4294967296\n\
                  remove 1\nadd \xff\ndelete one\nwrite\nquit\n";
    let folder = with_policy("edit-mistakes", &text(SHOP));
    let complaint = "line 1: found 'Bob'; expected a user category that the policy names\n\
        line 2: found the end of the line; expected a user category that the policy names\n\
        line 3: refused 9: found the operation max for Price; expected operations that it supports: avg, sum\n\
        line 4: refused 8: found City under both Address and City; expected references that share no leaf\n\
        line 5: refused 7: found Marketing excluded from Report; expected a category below Report\n\
        line 6: refused 24: found rule 3; the policy has 3 rules, counted from 0\n\
        line 7: refused 24: found rule 4294967296; the policy has 3 rules, counted from 0\n\
        line 8: found 'remove'; expected add, delete, list, why, write, quit or help\n\
        line 9: found a line that is no text; expected UTF-8\n\
        line 10: found 'one'; expected the number of a rule\n";
    let answer = "p.pspec: 3 rules. Idle: rules 0 and 2.\np.pspec: no edit to write\n";
    let said = edited(&folder, &[], lines);
    assert_eq!(said, (1, answer.to_string(), complaint.to_string()));
    assert_eq!(text_of(&folder, "p.pspec"), text(SHOP));
}

/// An operation of a refused rule does not count among the fifteen, nor later.
#[test]
fn a_refused_rule_leaves_no_name() {
    let policy = "users\n  U\ndata\n  D [a, b, c, d, e, f, g, h, i, j, k, l, m, n]\n";
    let lines =
        "add U, [access D] => [{x}]\nadd U, [access D] => [{y}]\nadd U, [access D] => [{x, y}]\n";
    let supported = "a, b, c, d, e, f, g, h, i, j, k, l, m, n";
    let found = |operation: &str, line: usize| {
        format!(
            "line {line}: refused 9: found the operation {operation} for D; \
             expected operations that it supports: {supported}\n"
        )
    };
    let many = "line 3: found 16 operations in a book; expected at most 15\n";
    let complaint = [&found("x", 1), &found("y", 2), many].concat();
    let answer = "p.pspec: 0 rules. Idle: no rule.\n";
    says("edit-operations", policy, lines, (1, answer, &complaint));
}

/// The first rule makes the section, and a 33rd is refused.
#[test]
fn as_many_rules_as_a_book_has() {
    let head = "users\n  A\ndata\n  D";
    let one = "add A, [access D] => forbid\n";
    let lines = [
        &one.repeat(33),
        "add A\ndelete 31\nadd A, [access D] => [{}] # last\nwhy 31\nwrite\n",
    ]
    .concat();
    let folder = with_policy("edit-many", head);
    let (status, answer, complaint) = edited(&folder, &[], lines.as_bytes());
    let full = "line 33: refused 33: found 32 rules; expected room for one more\n\
                line 34: found the end of the line; expected ',' or 'exclude'\n";
    assert_eq!((status, complaint.as_str()), (1, full));
    let answers: Vec<&str> = answer.lines().collect();
    // Nothing breaks a rule for want of a column.
    assert_eq!(answers[1], "Rule 0 is added: idle. No other mark changed.");
    assert_eq!(
        answers[32],
        "Rule 31 is added: idle. No other mark changed."
    );
    assert_eq!(answers[33], "Rule 31 is deleted. No mark changed.");
    assert_eq!(
        answers[35],
        "rule 31 (A, [access D] => [{}]): idle, nothing can break it"
    );
    assert_eq!(answers[36], "p.pspec: 34 edits written, 32 rules");
    let rules = "  A, [access D] => forbid\n".repeat(31);
    let written = format!("{head}\nrules\n{rules}  A, [access D] => [{{}}] # last\n");
    assert_eq!(text_of(&folder, "p.pspec"), written);
    let checked = run(&folder, &["check", "p.pspec"]);
    assert_eq!(checked.1, "p.pspec: 32 rules, no mistake\n");
}

#[test]
fn edits_that_are_not_written() {
    let policy = text(SHOP);
    let opened = "p.pspec: 3 rules. Idle: rules 0 and 2.\n";
    let deleted = format!(
        "{opened}Rule 0 is deleted; rules 1 and 2 are rules 0 and 1 now. No mark changed.\n"
    );
    let lost = "p.pspec: 1 edit not written\n";
    let ended = says("edit-end", &policy, "delete 0", (4, &deleted, lost));
    let found = |line: usize| {
        format!(
            "line {line}: found 1 edit not written; \
             expected 'write' before, or 'quit' again to leave without\n"
        )
    };
    let once = found(2) + lost;
    says(
        "edit-once",
        &policy,
        "delete 0\nquit\n",
        (4, &deleted, &once),
    );
    let apart = [found(2), found(4)].concat();
    let lines = "delete 0\nquit\nhelp me\nquit\n\n";
    let help = "line 3: found 'me'; expected the end of the line\n";
    let complaint = apart.replacen('\n', &format!("\n{help}"), 1) + lost;
    says("edit-apart", &policy, lines, (4, &deleted, &complaint));
    let twice = says(
        "edit-twice",
        &policy,
        "delete 0\nquit\nquit\nlist\n",
        (1, &deleted, &found(2)),
    );
    for folder in [ended, twice] {
        assert_eq!(text_of(&folder, "p.pspec"), policy);
    }
    says("edit-nothing", &policy, "", (0, opened, ""));
}

#[test]
fn a_policy_with_mistakes_is_not_edited() {
    let folder = with_policy(
        "edit-wrong",
        "users\n  A\ndata\n  D\nrules\n  B, [access D] => forbid\n",
    );
    let complaint = "p.pspec:6: found 'B'; expected a user category that the policy names\n";
    let said = edited(&folder, &[], b"list\n");
    assert_eq!(said, (1, String::new(), complaint.to_string()));
    let (status, _, complaint) = run(&folder, &["edit", "no.pspec"]);
    assert!(status == 2 && complaint.starts_with("no.pspec: can't be read: "));
    let (status, _, complaint) = run(&folder, &["edit"]);
    assert!(status == 2 && complaint.starts_with("found 'edit'; expected edit POLICY [--json]\n"));
}

/// On a terminal each line has a prompt before it, and the last one a line's end behind it.
#[test]
fn a_prompt_on_a_terminal() {
    let folder = with_policy("edit-prompt", &text(SHOP));
    let path = folder.join("p.pspec").display().to_string();
    let mut editor = Editor::open(&path).expect("it is a policy");
    let (mut out, mut err) = (Vec::new(), Vec::new());
    let mut outputs = Outputs {
        out: &mut out,
        err: &mut err,
        form: Form::Words { prompt: true },
    };
    let mut input = &b"why 9\n\nwhy 1\n"[..];
    let ended = edit::run(&mut editor, &mut input, &mut outputs);
    assert_eq!(ended, Ok(Ended::SomeNotDone));
    let needed = format!("rule 1 ({AVERAGE}): needed. Report breaks it alone with: output Price");
    let wanted = format!("{path}: 3 rules. Idle: rules 0 and 2.\n> > > {needed}\n> \n");
    assert_eq!(String::from_utf8_lossy(&out), wanted);
    assert!(err.starts_with(b"line 1: refused 24: "));
}

#[test]
fn help_in_the_editor() {
    let folder = with_policy("edit-help", &text(SHOP));
    let (status, answer, _) = edited(&folder, &[], b"help\n");
    assert!(status == 0 && answer.contains("delete N"), "{answer}");
    let (_, help, _) = run(&folder, &["help"]);
    let (_, editing) = answer.split_once('\n').expect("it is there");
    assert!(help.contains(editing));
}

/// The rules that are idle, each asked about.
fn afresh(book: &Book) -> impl Iterator<Item = u32> + '_ {
    (0..book.rule_count()).filter(|&rule| book.idle(rule).expect("there is one").is_idle())
}

/// A random edit of a book's rules, which it changes, by one of these or to one of these.
fn random_edit(random: &mut Random, named: &NamedBook, rules: &mut Vec<Rule>) -> String {
    if !rules.is_empty() && random.chance(1, 2) {
        let out = random.below(rules.len());
        rules.remove(out);
        return format!("delete {out}");
    }
    let new = random.below(named.contents.rules.len());
    let new = named.contents.rules[new].clone();
    let edit = format!("add {}", rule::text(&new, &named.names));
    rules.push(new);
    edit
}

/// After random edits of random books the marks are those of Idle afresh, and the text that is written
/// makes the book that they are of; what it says beside its rules is as it was.
#[test]
fn random_edits() {
    let folder = folder("edit-random");
    let path = folder.join("p.pspec").display().to_string();
    let mut idle = 0;
    for seed in 0..40 {
        let mut random = Random::new(seed);
        let size = [Size::Tiny, Size::Small][seed as usize % 2];
        let named = numbered(valid::draft(&mut random, size).bytes());
        fs::write(&path, show::text(&named.contents, &named.names)).expect("it is written");
        let mut editor = Editor::open(&path).expect("it is a policy");
        let mut rules = named.contents.rules.clone();
        let edits = if rules.is_empty() { 0 } else { 7 };
        for line in 0..edits {
            let edit = random_edit(&mut random, &named, &mut rules);
            let done = editor.carry_out(line, &edit).expect("it is sound");
            let (Done::Added { marks, .. } | Done::Deleted { marks, .. }) = done else {
                panic!("{done:?}");
            };
            editor.carry_out(line, "write").expect("it is written");
            let again = built(&text_of(&folder, "p.pspec"));
            assert_eq!(again.contents.rules, rules);
            let head = 4 * BLOCK;
            assert_eq!(again.book.bytes()[..head], named.book.bytes()[..head]);
            assert!(marks.numbers().eq(afresh(&again.book)));
            idle += marks.numbers().count();
        }
    }
    assert!(idle > 50, "{idle}");
}

const PIECES: [&str; 22] = [
    "add",
    "delete",
    "why",
    "list",
    "help",
    "0",
    "1",
    "31",
    "9999999999",
    "Report",
    "Analyst",
    "[",
    "]",
    "access",
    "Price",
    "=>",
    "forbid",
    "{avg}",
    ",",
    "#",
    "\t",
    "\u{2028}",
];

/// Lines of any kind are carried out or refused, and never stop the editor; what it lists then is what its
/// text says.
#[test]
fn any_lines() {
    let folder = with_policy("edit-any", &text(SHOP));
    let path = folder.join("p.pspec").display().to_string();
    let mut editor = Editor::open(&path).expect("it is a policy");
    let mut random = Random::new(7);
    let mut done = 0;
    for number in 1..4000 {
        let pieces: Vec<&str> = (0..random.between(1, 7))
            .map(|_| random.one(&PIECES))
            .collect();
        let (from, to) = (random.one(&PIECES), random.one(&PIECES));
        let line = match random.below(4) {
            0 => "add Report, [access Price] => forbid".replace(from, to),
            _ => pieces.join(" "),
        };
        done += usize::from(editor.carry_out(number, &line).is_ok());
    }
    let edits = editor.unwritten();
    assert!(done > 200 && edits > 30, "{done} {edits}");
    editor.carry_out(4000, "write").expect("it is written");
    let again = built(&text_of(&folder, "p.pspec"));
    let listed = match editor.carry_out(4001, "list") {
        Ok(Done::Listed { rules, .. }) => rules,
        other => panic!("{other:?}"),
    };
    let texts: Vec<String> = again
        .contents
        .rules
        .iter()
        .map(|of| rule::text(of, &again.names))
        .collect();
    assert!(listed.iter().map(|of| &of.rule).eq(&texts));
}

/// docs/EXAMPLE.md shows a session as it is seen on a terminal.
#[test]
fn the_session_in_the_document() {
    let document = text("docs/EXAMPLE.md");
    let (_, session) = document
        .split_once("```\n../target/shop.pspec: ")
        .expect("it is there");
    let (session, _) = session.split_once("```\n").expect("it ends");
    let folder = with_policy("edit-document", &text(SHOP));
    let path = folder.join("p.pspec").display().to_string();
    let mut editor = Editor::open(&path).expect("it is a policy");
    let mut seen = format!("{}\n", editor.opened());
    let lines = session.lines().filter_map(|line| line.strip_prefix("> "));
    let mut number = 0;
    for line in lines {
        number += 1;
        let answer = editor.carry_out(number, line);
        let answer = answer.map_or_else(|why| Some(why.text()), |done| done.text());
        let answer = answer.map_or(String::new(), |answer| format!("{answer}\n"));
        seen += &format!("> {line}\n{answer}");
    }
    assert_eq!(
        seen.replace(&path, "../target/shop.pspec"),
        format!("../target/shop.pspec: {session}")
    );
    assert!(number > 5 && editor.unwritten() == 0);
    let (_, shown) = document
        .split_once("It has written these rules:\n\n```\n")
        .expect("it is there");
    let (shown, _) = shown.split_once("```\n").expect("it ends");
    assert!(text_of(&folder, "p.pspec").ends_with(&format!("\n{shown}")));
}

/// What docs/EXAMPLE.md shows of the editor's answers for scripts.
#[test]
fn the_answers_in_the_document() {
    let document = text("docs/EXAMPLE.md");
    let folder = with_policy("edit-document-json", &text(SHOP));
    let lines = b"delete 1\nadd Report, [access Price] => [{max}]\n";
    let (_, answer, _) = edited(&folder, &["--json"], lines);
    assert!(document.contains(&answer), "{answer}");
}
