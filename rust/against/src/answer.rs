//! What an engine answers to a case.

use crate::engine::{nodes_and_length, unpacked, Engine, Marking};
use books::records::Records;
use books::reserve::Settle;
use books::Case;
use second::Refusal;
use std::fmt;

/// An answer, whatever the call.
#[derive(Clone, Copy, Debug, PartialEq, Eq)]
pub enum Answer {
    /// Check: the number of rules.
    Rules(u32),
    /// Seal and Flows: done.
    Done,
    /// Judge: the mask of broken rules.
    Broken(u32),
    /// Idle: the rule is idle.
    Idle,
    /// Idle: the user and the number of rows.
    Needed(u32, u32),
    /// Blocked: every association is open.
    Open,
    /// Blocked: the user and the association, as they are packed.
    Closed(u32),
    /// Culprits: the rule is not blocked.
    Unblocked,
    /// Culprits: the mask of the rules that close the data, the asking one among them.
    Few(u32),
    /// Ask: the plan is held, and the number of the hold.
    Held(u32),
    /// Ask: the plan is declined, and the mask of broken rules.
    Declined(u32),
    /// Ask: an answer that says neither.
    Neither(u64),
    /// Commit and Drop: the number given.
    Settled(u32),
    /// Tree: the nodes and the text's length, as they are packed.
    Written(u32),
    /// An arrival or a departure: the new mask.
    Marks(u32),
    /// The call is refused.
    Refused(Refusal),
    /// No engine's answer: what Idle may say of a rule that some plan breaks alone.
    NotIdle,
    /// No engine's answer: what Blocked may say of a rule whose data some plan opens.
    NotClosed,
    /// No engine's answer: what the documents state of every list of asks, commits and drops, of two lists
    /// that are alike for a user, of every list of edits, or of every answer.
    Stated(&'static str),
    /// The engine gave up; nothing can be compared.
    GaveUp,
}

impl fmt::Display for Answer {
    fn fmt(&self, f: &mut fmt::Formatter<'_>) -> fmt::Result {
        match self {
            Answer::Rules(n) => write!(f, "accepted with {n} rules"),
            Answer::Done => write!(f, "done"),
            Answer::Broken(mask) => write!(f, "broken {mask:#x}"),
            Answer::Idle => write!(f, "idle"),
            Answer::Needed(user, rows) => write!(f, "needed, user {user}, {rows} rows"),
            Answer::Open => write!(f, "open"),
            Answer::Closed(value) => closed(f, *value),
            Answer::Unblocked => write!(f, "not blocked"),
            Answer::Few(mask) => few(f, *mask),
            Answer::Held(number) => write!(f, "held under {number}"),
            Answer::Declined(mask) => write!(f, "declined, broken {mask:#x}"),
            Answer::Neither(value) => write!(f, "neither held nor declined ({value:#x})"),
            Answer::Settled(number) => write!(f, "settled {number}"),
            Answer::Written(value) => written(f, *value),
            Answer::Marks(mask) => write!(f, "marks {mask:#x}"),
            Answer::Refused(Refusal { number, place }) => write!(f, "refused {number} at {place}"),
            Answer::NotIdle => write!(f, "not idle, as a user and a plan break it alone"),
            Answer::NotClosed => write!(f, "not closed, as a plan opens it"),
            Answer::Stated(sentence) => write!(f, "{sentence}"),
            Answer::GaveUp => write!(f, "gave up"),
        }
    }
}

fn closed(f: &mut fmt::Formatter<'_>, value: u32) -> fmt::Result {
    let (user, data) = unpacked(value);
    write!(f, "closed ({value:#010x}), user {user}")?;
    for datum in data {
        write!(f, ", {:?} {}", datum.action, datum.leaf)?;
    }
    Ok(())
}

fn written(f: &mut fmt::Formatter<'_>, value: u32) -> fmt::Result {
    let (nodes, length) = nodes_and_length(value);
    write!(f, "written ({value:#010x}), {nodes} nodes, {length} bytes")
}

fn few(f: &mut fmt::Formatter<'_>, mask: u32) -> fmt::Result {
    write!(f, "closed by rules ({mask:#x})")?;
    let mut rules = (0..32).filter(|rule| mask >> rule & 1 == 1);
    rules.try_for_each(|rule| write!(f, " {rule}"))
}

/// What an answer of Ask that refuses nothing says.
fn asked(value: u64) -> Answer {
    match value >> 32 {
        0 => Answer::Declined(value as u32),
        1 => Answer::Held(value as u32),
        _ => Answer::Neither(value),
    }
}

/// Calls the engine. The case is changed as the call changes its buffers and records.
pub fn of(engine: &dyn Engine, case: &mut Case) -> Answer {
    let answer = match case {
        Case::Check { book } => engine.check(book).map(Answer::Rules),
        Case::Seal { block } => engine.seal(block).map(|()| Answer::Done),
        Case::Flows { book, plan, words } => engine.flows(book, plan, words).map(|()| Answer::Done),
        Case::Judge { book, user, plan } => engine.judge(book, *user, plan).map(Answer::Broken),
        Case::Idle { book, rule, buffer } => {
            searched(engine.idle(book, *rule, buffer), idle_or_needed)
        }
        Case::Blocked { book, rule } => {
            searched(engine.blocked(book, *rule), |value| match value {
                0 => Answer::Open,
                _ => Answer::Closed(value),
            })
        }
        Case::Culprits { book, rule } => {
            searched(engine.culprits(book, *rule), |mask| match mask {
                0 => Answer::Unblocked,
                _ => Answer::Few(mask),
            })
        }
        Case::Ask(given) => {
            let (book, plan) = (&given.book, &given.plan);
            let answer = engine.ask(book, given.user, plan, &mut given.records);
            answer.map(asked)
        }
        Case::Commit(given) => settled(given, |book, user, number, records| {
            engine.commit(book, user, number, records)
        }),
        Case::Drop(given) => settled(given, |book, user, number, records| {
            engine.drop_hold(book, user, number, records)
        }),
        Case::Tree(given) => engine.tree(given).map(Answer::Written),
        Case::Arrive(given) => marked(engine.arrive(&mut given.record, &given.block)),
        Case::Depart(given) => marked(engine.depart(&mut given.record, given.rule)),
    };
    answer.unwrap_or_else(Answer::Refused)
}

fn idle_or_needed(shown: Option<(u32, u32)>) -> Answer {
    match shown {
        None => Answer::Idle,
        Some((user, rows)) => Answer::Needed(user, rows),
    }
}

fn marked(answer: Marking) -> Result<Answer, Refusal> {
    searched(answer, Answer::Marks)
}

fn settled(
    given: &mut Settle,
    call: impl FnOnce(&[u8], u32, u32, &mut Records) -> Result<u32, Refusal>,
) -> Result<Answer, Refusal> {
    let answer = call(&given.book, given.user, given.number, &mut given.records);
    answer.map(Answer::Settled)
}

/// What a search says that may have been given up.
fn searched<T>(
    answer: Option<Result<T, Refusal>>,
    says: impl FnOnce(T) -> Answer,
) -> Result<Answer, Refusal> {
    match answer {
        None => Ok(Answer::GaveUp),
        Some(answer) => answer.map(says),
    }
}
