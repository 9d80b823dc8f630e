//! Rounds of random cases, both engines' answers compared.

use crate::alike::try_alike;
use crate::answer::{self, Answer};
use crate::closed::try_closed;
use crate::compare::{try_one, wrong, Difference};
use crate::culprits::try_causes;
use crate::edits::{try_edit, try_list};
use crate::engine::Engine;
use crate::kept::BySecond;
use crate::kinds::try_kinds;
use crate::reached::Reached;
use crate::steps::try_step;
use crate::tree::try_tree;
use books::alike::histories;
use books::edit_lists::list;
use books::valid::Size;
use books::{case, Case, Random};
use std::time::{Duration, Instant};

/// When to stop.
#[derive(Clone, Copy, Debug)]
pub enum Limit {
    /// After so many cases, the last round ended.
    Cases(u64),
    /// After so much time.
    Time(Duration),
}

/// Two histories come once in so many rounds, as they have as many cases as twenty of them.
const HISTORIES: usize = 40;

/// A list of edits comes once in so many rounds.
const LISTS: usize = 30;

/// Runs random cases until the limit or the first difference. `progress` is told after each round.
pub fn run(
    engines: [&dyn Engine; 2],
    seed: u64,
    limit: Limit,
    progress: &mut dyn FnMut(&Reached),
) -> Result<Reached, Box<Difference>> {
    let start = Instant::now();
    let mut random = Random::new(seed);
    let mut reached = Reached::default();
    let open = |reached: &Reached| match limit {
        Limit::Cases(n) => reached.cases < n,
        Limit::Time(time) => start.elapsed() < time,
    };
    while open(&reached) {
        let size = case::next_size(&mut random);
        for case in case::round(&mut random, size) {
            try_case(engines, &case, &mut reached)?;
        }
        if random.chance(1, HISTORIES) {
            let alike = histories::<BySecond>(&mut random, size);
            try_alike(engines, &alike, &mut reached)?;
        }
        edit_list(engines, &random, &mut reached)?;
        progress(&reached);
    }
    Ok(reached)
}

/// Tries a list of edits now and then. It has a generator of its own, so that the other calls of a seed don't
/// depend on it.
fn edit_list(
    engines: [&dyn Engine; 2],
    random: &Random,
    reached: &mut Reached,
) -> Result<(), Box<Difference>> {
    let mut own = Random::new(random.clone().bits());
    if !own.chance(1, LISTS) {
        return Ok(());
    }
    let size = own.one(&[Size::Tiny, Size::Small]);
    try_list(engines, &list(&mut own, size), reached)
}

/// Compares a case. Then what Idle shows is judged, and what Blocked says is closed; what Culprits says is
/// held against both Blocked and Judge; a rule that a plan breaks alone is asked for; an ask, a commit or a
/// drop is gone through by its sentences, and so is an edit; and the text of a tree is read back. Books that
/// say the same otherwise are answered alike.
pub fn try_case(
    engines: [&dyn Engine; 2],
    case: &Case,
    reached: &mut Reached,
) -> Result<(), Box<Difference>> {
    let answer = try_one(engines, case, reached)?;
    try_kinds(engines, case, reached)?;
    match (case, answer) {
        (Case::Idle { .. }, Answer::Needed(user, rows)) => {
            try_shown(engines, case, user, rows, reached)
        }
        (Case::Judge { book, .. }, Answer::Broken(mask)) if mask.is_power_of_two() => {
            try_alone(engines, book, mask.trailing_zeros(), reached)
        }
        (Case::Blocked { book, .. }, Answer::Closed(value)) => {
            try_closed(engines, case, book, value)
        }
        (Case::Culprits { book, rule }, answer) => try_causes(engines, book, *rule, answer),
        (Case::Ask(_) | Case::Commit(_) | Case::Drop(_), answer) => try_step(engines, case, answer),
        (Case::Tree(given), answer) => try_tree(engines, given, answer),
        (Case::Arrive(_) | Case::Depart(_), _) => try_edit(engines, case, reached),
        _ => Ok(()),
    }
}

/// "Judge, given the same book, the user that Idle names and the first 4 × row count bytes of the
/// buffer as Idle leaves it, then accepts, and its mask is 2 to the power r."
fn try_shown(
    engines: [&dyn Engine; 2],
    idle: &Case,
    user: u32,
    rows: u32,
    reached: &mut Reached,
) -> Result<(), Box<Difference>> {
    let mut after = idle.clone();
    answer::of(engines[0], &mut after);
    let Case::Idle { book, rule, buffer } = after else {
        return Ok(());
    };
    let plan = buffer[..4 * rows as usize].to_vec();
    let judge = Case::Judge { book, user, plan };
    let answer = try_one(engines, &judge, reached)?;
    match answer {
        Answer::Broken(mask) if mask == 1 << rule => Ok(()),
        _ => Err(wrong(engines, judge, Answer::Broken(1 << rule), answer)),
    }
}

/// A rule that some user and plan, of whatever form, break alone is not idle.
fn try_alone(
    engines: [&dyn Engine; 2],
    book: &[u8],
    rule: u32,
    reached: &mut Reached,
) -> Result<(), Box<Difference>> {
    let idle = Case::Idle {
        book: book.to_vec(),
        rule,
        buffer: vec![0; 36],
    };
    match try_one(engines, &idle, reached)? {
        Answer::Idle => Err(wrong(engines, idle, Answer::NotIdle, Answer::Idle)),
        _ => Ok(()),
    }
}
