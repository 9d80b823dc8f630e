//! Times each call of the engine and of the second implementation, in one run, on the same bytes.
//!
//! `bench count` counts the instructions of each call (valgrind is needed), and `bench stack` finds
//! the smallest stack on which each call runs.
#![forbid(unsafe_code)]

mod calls;
mod clock;
mod count;
mod edits;
mod reserve;
mod stack;
mod table;
mod trees;

use books::draft::BLOCK;
use books::edits::HEAD;
use books::trees::ROOM;
use books::{named, plans, Draft, Random};
use clock::best;
use edits::{Edit, Editing};
use reserve::Reserve;
use second::book::Book;
use second::{reading, Tally};
use std::hint::black_box;
use std::ops::Range;
use std::time::Duration;
use table::Line;

/// Steps after which the second implementation's search is left out: a few seconds.
const STEPS: u64 = 1_500_000;

/// The time for a rule above which the second implementation is not timed for all rules.
const SOON: Duration = Duration::from_millis(200);

/// Choices for a user above which the naive search is left out.
const CHOICES: u128 = 100_000;

fn main() {
    let words: Vec<String> = std::env::args().skip(1).collect();
    match words.iter().map(String::as_str).collect::<Vec<_>>()[..] {
        [] => times(),
        ["count"] => instructions(),
        ["stack"] => stack::print(),
        ["once", call, book] => count::ready(call, &input_named(book))(),
        ["on", bytes, call, book] => stack::run(bytes, call, &input_named(book)),
        _ => {
            eprintln!("bench [count | stack]");
            std::process::exit(2);
        }
    }
}

/// Which calls a book is for.
#[derive(Clone, Copy, PartialEq, Eq)]
enum For {
    All,
    Searches,
    Idle,
    Blocked,
}

impl For {
    /// Is the call of this name made on such a book?
    fn has(self, call: &str) -> bool {
        match self {
            For::All => true,
            For::Searches => ["idle", "blocked", "culprits"].contains(&call),
            For::Idle => call == "idle",
            For::Blocked => ["blocked", "culprits"].contains(&call),
        }
    }
}

/// A book for timing, and the rule that is asked about.
struct Timed {
    name: String,
    draft: Draft,
    rule: u32,
    calls: For,
}

/// The books for timing.
fn timed() -> Vec<Timed> {
    let named = named::all().into_iter().map(|(name, draft, rule)| Timed {
        calls: match name.starts_with("hard") {
            true => For::Searches,
            false => For::All,
        },
        name,
        draft,
        rule,
    });
    let needed = books::needed::hard().into_iter().map(|book| Timed {
        name: book.name.to_string(),
        draft: book.draft,
        rule: 0,
        calls: For::Idle,
    });
    let hard = books::blocked::hard().into_iter();
    // In each of them rule 30 speaks of all leaves.
    let hard = hard.map(|(name, draft, _)| Timed {
        name,
        draft,
        rule: 30,
        calls: For::Blocked,
    });
    let together = books::culprits::hard().into_iter().map(|book| Timed {
        name: book.name.to_string(),
        draft: book.draft,
        rule: book.rule,
        calls: For::Blocked,
    });
    let all = named.chain(needed).chain(hard).chain(together);
    all.collect()
}

/// The books for timing, and one that is worst for Judge.
fn all() -> Vec<Timed> {
    let mut all = timed();
    all.push(Timed {
        name: "all choices accepted".to_string(),
        draft: named::accepting(),
        rule: 0,
        calls: For::All,
    });
    all
}

/// The books for the stack alone: the engine goes up their categories by recursion. Without functions every
/// rule is blocked.
fn deep() -> [Timed; 2] {
    let chain = named::chain();
    let blocked = Draft {
        functions: vec![],
        ..chain.clone()
    };
    [("one chain", chain), ("blocked chain", blocked)].map(|(name, draft)| Timed {
        name: name.to_string(),
        draft,
        rule: 0,
        calls: For::All,
    })
}

/// The input of a book by its name.
fn input_named(name: &str) -> Input {
    let mut books = all().into_iter().chain(deep());
    let found = books.find(|book| book.name == name);
    let book = found.expect("a book of that name");
    Input::new(book.name, book.draft, book.rule..book.rule + 1)
}

/// Counts the instructions of each call on each book, beside those of a plain loop over the sums.
fn instructions() {
    table::count_head();
    for Timed {
        name, rule, calls, ..
    } in all()
    {
        let mut sums = None;
        for call in count::CALLS.iter().filter(|call| calls.has(call.name)) {
            let number = count::instructions(call, &name);
            sums = sums.or(number.filter(|_| call.name == "sums"));
            table::count_row(&name, &call.about(rule), number, sums);
        }
    }
}

fn times() {
    table::head();
    for book in timed() {
        let all = 0..book.draft.rules.len() as u32;
        let mut input = Input::new(book.name, book.draft, book.rule..book.rule + 1);
        if book.calls == For::All {
            check(&input);
            seal(&input);
            flows(&input);
            judge(&input);
            ask(&input);
            settle(&input);
            tree(&input);
        }
        // A book that is hard for Idle is so for one rule.
        if book.calls.has("idle") {
            idle(&input);
        }
        input.rules = all;
        if book.calls == For::All {
            idle(&input);
            idle_naive(&input);
            edit(&input);
        }
        if book.calls.has("blocked") {
            blocked(&input);
            culprits(&input);
        }
    }
}

/// What the calls are given.
struct Input {
    name: String,
    book: Vec<u8>,
    plan: Vec<u8>,
    user: u32,
    /// The rules that Idle, Blocked and Culprits are asked about, one after the other.
    rules: Range<u32>,
}

impl Input {
    fn new(name: String, draft: Draft, rules: Range<u32>) -> Input {
        let plan = match name.as_str() {
            "all choices accepted" => named::accepting_plan(),
            _ => plans::full(&mut Random::new(1), &draft),
        };
        let user = books::draft::leaves(&draft.users)[0];
        Input {
            name,
            book: draft.bytes(),
            plan,
            user: u32::from(user),
            rules,
        }
    }

    fn line(&self, call: impl Into<String>) -> Line<'_> {
        Line {
            book: &self.name,
            call: call.into(),
            engine: None,
            second: None,
            plain: None,
        }
    }
}

fn check(input: &Input) {
    let book = &input.book;
    table::row(&Line {
        engine: calls::check(book),
        second: Some(best(|| second::check(black_box(book)))),
        plain: Some(best(|| check_sums(black_box(book)))),
        ..input.line("check")
    });
}

/// A plain loop over the same bytes: are all check sums right? Not inlined, so that it can be counted.
#[inline(never)]
fn check_sums(book: &[u8]) -> bool {
    book.chunks_exact(512).all(|block| {
        let mut sum = 0;
        for (i, &byte) in block[..510].iter().enumerate() {
            sum += (i as u32 + 1) * u32::from(byte);
        }
        let stored = u16::from_be_bytes([block[510], block[511]]);
        sum % 65_521 == u32::from(stored)
    })
}

fn seal(input: &Input) {
    let mut block = input.book[..512].to_vec();
    table::row(&Line {
        engine: calls::seal(&mut block.clone()),
        second: Some(best(|| second::seal(black_box(&mut block)))),
        ..input.line("seal")
    });
}

fn flows(input: &Input) {
    let (book, plan) = (&input.book, &input.plan);
    let mut words = [0; 32];
    table::row(&Line {
        engine: calls::flows(book, plan),
        second: Some(best(|| second::flows(book, black_box(plan), &mut words))),
        ..input.line("flows, 64 rows")
    });
}

fn judge(input: &Input) {
    let (book, plan) = (&input.book, &input.plan);
    table::row(&Line {
        engine: calls::judge(book, input.user, plan),
        second: Some(best(|| second::judge(book, input.user, black_box(plan)))),
        ..input.line("judge, 64 rows")
    });
}

/// Each call begins from the same tally and hold record.
fn ask(input: &Input) {
    let (book, user) = (&input.book, input.user);
    for (call, reserve) in [
        ("ask, held", Reserve::held(input)),
        ("ask, declined", Reserve::declined(input)),
    ] {
        assert_eq!(reserve.is_held(input), call == "ask, held");
        let (plan, ledger) = (&reserve.plan, &reserve.ledger);
        let start = reserve.holds(user);
        let mut ask = || {
            let (mut tally, mut holds) = (Tally::default(), start);
            second::ask(book, user, black_box(plan), ledger, &mut tally, &mut holds)
        };
        table::row(&Line {
            engine: calls::ask(book, user, &reserve),
            second: Some(best(&mut ask)),
            ..input.line(call)
        });
    }
}

/// Commit and Drop of the last of eight plans, each from the same tally and hold record.
fn settle(input: &Input) {
    let (book, user, reserve) = (&input.book, input.user, Reserve::full(input));
    let (number, start) = (reserve.number(), reserve.holds(user));
    let mut ledger = reserve.ledger.clone();
    let mut commit = || {
        let (mut tally, mut holds) = (Tally::default(), start);
        second::commit(book, user, number, &mut ledger, &mut tally, &mut holds)
    };
    table::row(&Line {
        engine: calls::commit(book, user, &reserve),
        second: Some(best(&mut commit)),
        ..input.line("commit")
    });
    let mut drop_hold = || {
        let (mut tally, mut holds) = (Tally::default(), start);
        second::drop_hold(book, user, number, &reserve.ledger, &mut tally, &mut holds)
    };
    table::row(&Line {
        engine: calls::drop_hold(book, user, &reserve),
        second: Some(best(&mut drop_hold)),
        ..input.line("drop")
    });
}

fn tree(input: &Input) {
    let mut buffer = vec![0; ROOM];
    for asked in trees::asked() {
        let mut tree = || second::tree(&input.book, black_box(&asked.plan), asked.row, &mut buffer);
        table::row(&Line {
            engine: calls::tree(&input.book, &asked),
            second: Some(best(&mut tree)),
            ..input.line(asked.name)
        });
    }
}

fn idle(input: &Input) {
    let search = |rule: u32| {
        let mut buffer = [0; 36];
        second::idle_within(black_box(&input.book), rule, &mut buffer, STEPS)
    };
    let all = || input.rules.clone().all(|rule| search(rule).is_some());
    table::row(&Line {
        engine: calls::idle(&input.book, input.rules.clone()),
        second: all().then(|| best(all)),
        ..input.line(idle_name(input))
    });
}

fn idle_name(input: &Input) -> String {
    match input.rules.len() {
        1 => format!("idle, rule {}", input.rules.start),
        _ => "idle, all rules".to_string(),
    }
}

/// The naive search beside the engine, where it ends soon.
fn idle_naive(input: &Input) {
    let book = reading::read(&input.book).expect("it is accepted");
    let choices: u128 = input
        .rules
        .clone()
        .map(|rule| second::idle::choices(&book, rule as usize))
        .sum();
    if choices > CHOICES {
        return;
    }
    let search = |rule: u32| second::idle_naive(black_box(&input.book), rule, &mut [0; 36]);
    let all = || input.rules.clone().all(|rule| search(rule).is_ok());
    table::row(&Line {
        engine: calls::idle(&input.book, input.rules.clone()),
        second: Some(best(all)),
        ..input.line("the same, naive")
    });
}

/// All rules of a book.
fn all_rules(input: &Input) -> Range<u32> {
    0..(input.book.len() / BLOCK - HEAD) as u32
}

/// An arrival of the last rule and departures of the first and the last one, each from the same record with its
/// right marks.
fn edit(input: &Input) {
    let search = |book: &Book, rule: usize| second::idle::within(book, rule, STEPS);
    for name in edits::NAMES {
        let given = Editing::named(name, input, calls::is_idle);
        let start = given.second();
        let edit = || {
            let mut record = start.clone();
            let reply = match &given.edit {
                Edit::Arrive(block) => second::arrive_by(&mut record, black_box(block), &search),
                Edit::Depart(rule) => second::depart_by(&mut record, black_box(*rule), &search),
            };
            reply.is_some()
        };
        table::row(&Line {
            engine: calls::edit(&given),
            second: edit().then(|| best(edit)),
            ..input.line(name)
        });
    }
}

fn blocked(input: &Input) {
    let search = |rule: u32| second::blocked_within(black_box(&input.book), rule, STEPS).is_some();
    let engine = calls::blocked(&input.book, input.rules.clone());
    by_rule(input, "blocked", engine, search);
}

fn culprits(input: &Input) {
    let search = |rule: u32| second::culprits_within(black_box(&input.book), rule, STEPS).is_some();
    let engine = calls::culprits(&input.book, input.rules.clone());
    by_rule(input, "culprits", engine, search);
}

/// The rule that takes the engine longest, and all rules together. Without the engine, the first rule. The
/// search of the second implementation says whether it ended.
fn by_rule(
    input: &Input,
    call: &str,
    engine: Option<Vec<(u32, Duration)>>,
    search: impl Fn(u32) -> bool,
) {
    let worst = engine.iter().flatten().max_by_key(|(_, time)| *time);
    let asked = worst.map_or(input.rules.start, |(rule, _)| *rule);
    let one = || search(asked);
    let all = || input.rules.clone().all(&search);
    let second = one().then(|| best(one));
    let worst_said = worst.map_or("", |_| "worst ");
    table::row(&Line {
        engine: worst.map(|(_, time)| *time),
        second,
        ..input.line(format!("{call}, {worst_said}rule {asked}"))
    });
    let soon = second.is_some_and(|time| time < SOON);
    table::row(&Line {
        engine: engine.map(|times| times.iter().map(|(_, time)| *time).sum()),
        second: (soon && all()).then(|| best(all)),
        ..input.line(format!("{call}, all rules"))
    });
}
