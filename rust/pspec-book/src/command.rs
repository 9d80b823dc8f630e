//! The commands.

use crate::arguments::{self, Arguments, Asked};
use crate::blocked::RuleBlocking;
use crate::edit::{self, Ended, Form, Outputs};
use crate::editor::Editor;
use crate::fault::Fault;
use crate::files::{self, open, read_text};
use crate::help::{EDITING, HELP, PROVED};
use crate::judge::{self, NotJudged};
use crate::lineage::{self, Traced};
use crate::mistake::Mistakes;
use crate::named::NamedBook;
use crate::phrases::{counted, shown};
use crate::plan::{self, PlanText};
use crate::report::{self, RuleReport};
use crate::{blocked, build, explain, html, labels, lineage_tree, policy, show};
use std::io::{self, IsTerminal, Write};

/// How a command ends that gives its answer.
#[derive(Clone, Copy, Debug, PartialEq, Eq)]
pub enum Outcome {
    /// Nothing is refused and nothing broken.
    Fine,
    /// A rule is broken.
    Broken,
    /// A rule is idle, and the status was to say so.
    Idle,
    /// A rule is blocked, and the status was to say so.
    Blocked,
    /// The editor did not carry out some line.
    NotDone,
    /// The editor's input ended, and edits are not written.
    Unwritten,
}

/// Carries out what the words ask for, and writes the answer.
pub fn run(words: &[String], out: &mut dyn Write) -> Result<Outcome, Fault> {
    match arguments::read(words).map_err(Fault::Usage)? {
        Asked::Command(arguments) => carry_out(&arguments, out),
        Asked::Help(Some(command)) => said(writeln!(out, "{}", command.help())),
        Asked::Help(None) => {
            let usage = arguments::usage();
            said(writeln!(out, "{usage}\n\n{HELP}\n\n{EDITING}\n\n{PROVED}"))
        }
        Asked::Version => said(writeln!(out, "pspec-book {}", env!("CARGO_PKG_VERSION"))),
    }
}

fn carry_out(arguments: &Arguments, out: &mut dyn Write) -> Result<Outcome, Fault> {
    let operands: Vec<&str> = arguments.operands.iter().map(String::as_str).collect();
    match (arguments.command.name, operands.as_slice()) {
        ("build", [policy]) => build(policy, arguments.option("-o").unwrap_or_default(), out),
        ("check", [policy]) => check(policy, out),
        ("edit", [policy]) => edit(policy, arguments.json(), out),
        ("show", [book]) => show(book, out),
        ("report", [book]) => report(book, arguments, out),
        ("blocked", [book]) => blocked(book, arguments, out),
        ("labels", [book]) => labels(book, arguments.json(), out),
        ("judge", [book, user, plan]) => judge(book, user, plan, arguments.json(), out),
        ("flows", [book, plan]) => flows(book, plan, arguments.json(), out),
        ("tree", [book, plan, row]) => tree(book, plan, row, arguments, out),
        ("encode", [book, plan]) => encode(book, plan, arguments.option("-o"), out),
        ("decode", [book, rows @ ..]) => decode(book, &rows.join(" "), out),
        (name, _) => Err(Fault::Usage(format!("found '{name}'"))),
    }
}

fn check(policy: &str, out: &mut dyn Write) -> Result<Outcome, Fault> {
    let rules = made(policy)?.book.rule_count() as usize;
    let rules = counted(rules, "rule");
    said(writeln!(out, "{policy}: {rules}, no mistake"))
}

fn edit(policy: &str, json: bool, out: &mut dyn Write) -> Result<Outcome, Fault> {
    report::start("finding the idle rules");
    let opened = Editor::open(policy);
    report::clear();
    let mut editor = opened?;
    let form = match json {
        true => Form::Json,
        false => Form::Words {
            prompt: io::stdin().is_terminal(),
        },
    };
    let err = &mut io::stderr();
    let mut outputs = Outputs { out, err, form };
    let ended = edit::run(&mut editor, &mut io::stdin().lock(), &mut outputs)?;
    Ok(match ended {
        Ended::Fine => Outcome::Fine,
        Ended::SomeNotDone => Outcome::NotDone,
        Ended::Unwritten => Outcome::Unwritten,
    })
}

fn show(book: &str, out: &mut dyn Write) -> Result<Outcome, Fault> {
    let NamedBook {
        contents, names, ..
    } = open(book)?;
    said(write!(out, "{}", show::text(&contents, &names)))
}

fn report(book: &str, arguments: &Arguments, out: &mut dyn Write) -> Result<Outcome, Fault> {
    let named = open(book)?;
    let page = arguments.option("--html");
    let reports = match arguments.json() || page.is_some() {
        true => report::each(&named, |_| Ok(())),
        false => report::write(&named, out),
    };
    let reports = reports.map_err(unsaid)?;
    if let Some(file) = page {
        let page = html::page(book, &named, &reports);
        files::answer(file, page.as_bytes(), &[book])?;
    }
    match (arguments.json(), page) {
        (true, _) => said(writeln!(out, "{}", report::json(&reports)))?,
        (false, Some(file)) => said(writeln!(out, "{file}: the report on {book}"))?,
        (false, None) => Outcome::Fine,
    };
    let idle = reports.iter().any(RuleReport::is_idle);
    Ok(match idle && arguments.option("--exit-code").is_some() {
        true => Outcome::Idle,
        false => Outcome::Fine,
    })
}

fn blocked(book: &str, arguments: &Arguments, out: &mut dyn Write) -> Result<Outcome, Fault> {
    let named = open(book)?;
    let rules = blocked::each(&named);
    let rules = rules.map_err(|refusal| Fault::Refused(format!("{book}: {refusal}")))?;
    let page = arguments.option("--html");
    if let Some(file) = page {
        let page = html::blocked(book, &named, &rules);
        files::answer(file, page.as_bytes(), &[book])?;
    }
    match (arguments.json(), page) {
        (true, _) => said(writeln!(out, "{}", blocked::json(&rules, &named.names)))?,
        (false, Some(file)) => said(writeln!(out, "{file}: the report on {book}"))?,
        (false, None) => said(write!(out, "{}", blocked::text(&rules, &named.names)))?,
    };
    let some = rules.iter().any(RuleBlocking::is_blocked);
    Ok(match some && arguments.option("--exit-code").is_some() {
        true => Outcome::Blocked,
        false => Outcome::Fine,
    })
}

/// The book of a policy's file.
fn made(policy: &str) -> Result<NamedBook, Fault> {
    let text = read_text(policy)?;
    let read = policy::read(&text).and_then(|policy| {
        let book = build::book(&policy)?;
        Ok(NamedBook::new(book, policy.names))
    });
    read.map_err(|mistakes| Fault::Refused(mistakes.in_file(policy)))
}

fn build(policy: &str, book: &str, out: &mut dyn Write) -> Result<Outcome, Fault> {
    let named = made(policy)?;
    let names = files::keep(policy, book, &named)?;
    let rules = named.book.rule_count() as usize;
    said(writeln!(
        out,
        "{book}: {} blocks, {}; names in {}",
        4 + rules,
        counted(rules, "rule"),
        names.display()
    ))
}

fn labels(book: &str, json: bool, out: &mut dyn Write) -> Result<Outcome, Fault> {
    let labels = labels::labels(&open(book)?);
    let labels = labels.map_err(|refusal| Fault::Refused(format!("{book}: {refusal}")))?;
    match json {
        true => said(writeln!(out, "{}", labels.json())),
        false => said(write!(out, "{}", labels.text())),
    }
}

/// The plan of a text, and what it gives away.
fn traced(named: &NamedBook, plan: &str) -> Result<(PlanText, Vec<Traced>), Fault> {
    let refused = |mistakes: Mistakes| Fault::Refused(mistakes.in_file(plan));
    let read = plan::read(&read_text(plan)?, named).map_err(refused)?;
    let traced = lineage::traced(&read, named);
    let traced =
        traced.map_err(|refusal| refused(explain::plan(refusal, &read, &named.contents).into()))?;
    Ok((read, traced))
}

fn flows(book: &str, plan: &str, json: bool, out: &mut dyn Write) -> Result<Outcome, Fault> {
    let named = open(book)?;
    let (_, accesses) = traced(&named, plan)?;
    if json {
        return said(writeln!(out, "{}", lineage::json(&accesses, &named.names)));
    }
    if accesses.is_empty() {
        return said(writeln!(out, "The plan gives nothing away."));
    }
    for access in accesses {
        said(writeln!(out, "{}", access.text(&named.names)))?;
    }
    Ok(Outcome::Fine)
}

fn tree(
    book: &str,
    plan: &str,
    row: &str,
    arguments: &Arguments,
    out: &mut dyn Write,
) -> Result<Outcome, Fault> {
    let row = arguments::row(row).map_err(Fault::Usage)?;
    let named = open(book)?;
    let refused = |mistakes: Mistakes| Fault::Refused(mistakes.in_file(plan));
    let read = plan::read(&read_text(plan)?, &named).map_err(refused)?;
    let tree = named.book.tree(&read.plan, row);
    let tree =
        tree.map_err(|refusal| refused(explain::tree(refusal, row, &read, &named).into()))?;
    match (arguments.json(), arguments.names()) {
        (true, _) => {
            let json = lineage_tree::json(row, &tree, &read.plan, &named);
            said(writeln!(out, "{json}"))
        }
        (_, true) => {
            let text = lineage_tree::text(&tree, &read.plan, &named);
            said(write!(out, "{text}"))
        }
        _ => said(write!(out, "{tree}")),
    }
}

fn encode(
    book: &str,
    plan: &str,
    file: Option<&str>,
    out: &mut dyn Write,
) -> Result<Outcome, Fault> {
    let (read, _) = traced(&open(book)?, plan)?;
    let Some(file) = file else {
        return said(writeln!(out, "{}", read.plan));
    };
    files::answer(file, read.plan.bytes(), &[book, plan])?;
    let rows = counted(read.lines.len(), "row");
    said(writeln!(out, "{file}: {rows}"))
}

fn decode(book: &str, rows: &str, out: &mut dyn Write) -> Result<Outcome, Fault> {
    let named = open(book)?;
    let plan = plan::from_digits(rows).map_err(|word| {
        let word = shown(&word);
        Fault::Refused(format!(
            "found '{word}'; expected rows of eight hexadecimal digits"
        ))
    })?;
    if let Err(refusal) = named.book.flows(&plan) {
        let lines = (0..plan.rows().count()).collect();
        let mistake = explain::plan(refusal, &PlanText { plan, lines }, &named.contents);
        return Err(Fault::Refused(format!("row {mistake}")));
    }
    said(write!(out, "{}", plan::text(&plan, &named.names)))
}

fn judge(
    book: &str,
    user: &str,
    plan: &str,
    json: bool,
    out: &mut dyn Write,
) -> Result<Outcome, Fault> {
    let named = open(book)?;
    let text = read_text(plan)?;
    let broken = judge::broken(&named, user, &text).map_err(|why| match why {
        NotJudged::User(why) => Fault::Refused(why),
        NotJudged::Plan(mistakes) => Fault::Refused(mistakes.in_file(plan)),
    })?;
    match json {
        true => said(writeln!(
            out,
            "{}",
            judge::json(user, &broken, &named.names)
        ))?,
        false => said(write!(out, "{}", judge::text(user, &broken, &named.names)))?,
    };
    Ok(match broken.is_empty() {
        true => Outcome::Fine,
        false => Outcome::Broken,
    })
}

fn said(written: io::Result<()>) -> Result<Outcome, Fault> {
    written.map(|()| Outcome::Fine).map_err(unsaid)
}

fn unsaid(why: io::Error) -> Fault {
    Fault::File(format!("the answer can't be written: {why}"))
}
