//! Counts the instructions of one call with callgrind, which do not depend on what else the machine
//! is doing. The program runs itself under valgrind, one call each time.

use crate::edits::{self, Editing};
use crate::reserve::Reserve;
use crate::{all_rules, calls, check_sums, trees, Input};
use std::hint::black_box;
use std::process::Command;

/// A call to count: its name, the symbol that it is counted in, and how many rows it takes of the book's plan.
/// Ask and Tree have plans of their own, by the call's name.
pub struct Counted {
    pub name: &'static str,
    symbol: &'static str,
    rows: usize,
}

/// The plain loop over the sums comes first: the others are given as its multiples.
pub const CALLS: [Counted; 20] = [
    counted("sums", "*check_sums*", 0),
    counted("check", "pspec_check", 0),
    counted("flows, 64 rows", "pspec_flows", 64),
    counted("judge, 8 rows", "pspec_judge", 8),
    counted("judge, 64 rows", "pspec_judge", 64),
    counted("ask, held", "pspec_ask", 0),
    counted("ask, declined", "pspec_ask", 0),
    counted("commit", "pspec_commit", 0),
    counted("drop", "pspec_drop", 0),
    counted("idle", "pspec_idle", 0),
    counted("idle, all rules", "pspec_idle", 0),
    counted("arrive, last", "pspec_arrive", 0),
    counted("depart, first", "pspec_depart", 0),
    counted("depart, last", "pspec_depart", 0),
    counted("blocked", "pspec_blocked", 0),
    counted("culprits", "pspec_culprits", 0),
    counted("tree, 1 node", "pspec_tree", 0),
    counted("tree, 64 nodes", "pspec_tree", 0),
    counted("tree, 4096 nodes", "pspec_tree", 0),
    counted("tree, refused", "pspec_tree", 0),
];

const fn counted(name: &'static str, symbol: &'static str, rows: usize) -> Counted {
    Counted { name, symbol, rows }
}

impl Counted {
    /// Its name, with the rule where one is asked about.
    pub fn about(&self, rule: u32) -> String {
        match self.name {
            "idle" | "blocked" | "culprits" => format!("{}, rule {rule}", self.name),
            name => name.to_string(),
        }
    }
}

/// The instructions of one call on a book, or nothing where valgrind is missing or fails.
pub fn instructions(call: &Counted, book: &str) -> Option<u64> {
    let this = std::env::current_exe().ok()?;
    let run = Command::new("valgrind")
        .arg("--tool=callgrind")
        .arg("--callgrind-out-file=/dev/null")
        .arg(format!("--toggle-collect={}", call.symbol))
        .arg(this)
        .args(["once", call.name, book])
        .output()
        .ok()?;
    let said = String::from_utf8_lossy(&run.stderr);
    let line = said.lines().find(|line| line.contains("Collected :"))?;
    line.rsplit(':').next()?.trim().parse().ok()
}

/// The one call that is counted, with its records made before it where it has some.
pub fn ready<'a>(name: &'a str, input: &'a Input) -> Box<dyn FnOnce() + Send + 'a> {
    let (book, user) = (&input.book, input.user);
    match name {
        "ask, held" => Box::new(calls::ask_once(book, user, Reserve::held(input))),
        "ask, declined" => Box::new(calls::ask_once(book, user, Reserve::declined(input))),
        "commit" => Box::new(calls::commit_once(book, user, Reserve::full(input))),
        "drop" => Box::new(calls::drop_once(book, user, Reserve::full(input))),
        name if edits::NAMES.contains(&name) => Box::new(calls::edit_once(Editing::named(
            name,
            input,
            calls::is_idle,
        ))),
        _ => Box::new(move || once(name, input)),
    }
}

/// Makes a call that has no records.
fn once(name: &str, input: &Input) {
    let Some(call) = CALLS.iter().find(|call| call.name == name) else {
        return;
    };
    let plan = &input.plan[..input.plan.len().min(4 * call.rows)];
    match call.symbol {
        "pspec_check" => calls::check_once(&input.book),
        "pspec_flows" => calls::flows_once(&input.book, plan),
        "pspec_judge" => calls::judge_once(&input.book, input.user, plan),
        "pspec_idle" if name == "idle" => calls::idle_once(&input.book, input.rules.start),
        "pspec_idle" => all_rules(input).for_each(|rule| calls::idle_once(&input.book, rule)),
        "pspec_blocked" => calls::blocked_once(&input.book, input.rules.start),
        "pspec_culprits" => calls::culprits_once(&input.book, input.rules.start),
        "pspec_tree" => {
            let asked = trees::asked().into_iter().find(|asked| asked.name == name);
            calls::tree_once(&input.book, &asked.expect("a plan of that name"));
        }
        _ => {
            black_box(check_sums(black_box(&input.book)));
        }
    }
}
