//! What document 02's N1 states of an answer of Blocked, by the same engine's Judge.

use crate::answer::Answer;
use crate::compare::{wrong, Difference};
use crate::engine::{unpacked, Engine};
use books::Case;
use second::access::Access;
use second::book::Book;
use second::{choice, reading, shown, Refusal};

/// Choices of operations for an association above which they are not judged.
const JUDGED: usize = 40;

/// The accesses that the data of an association may become, where the choices are not too many.
fn offered(book: &Book, value: u32) -> Option<Vec<Vec<Access>>> {
    let obtainable = book.obtainable();
    let (_, data) = unpacked(value);
    let offered = data.iter().map(|datum| {
        let of = |a: &&Access| (a.action, a.leaf) == (datum.action, datum.leaf);
        obtainable.iter().filter(of).copied().collect()
    });
    let offered: Vec<Vec<Access>> = offered.collect();
    let count: usize = offered.iter().map(Vec::len).product();
    (count <= JUDGED).then_some(offered)
}

/// What Judge says of each choice of operations for an association that a value of Blocked names; nothing
/// where the choices are too many.
pub fn judged(engine: &dyn Engine, bytes: &[u8], value: u32) -> Option<Vec<Result<u32, Refusal>>> {
    let book = reading::read(bytes).ok()?;
    let (user, _) = unpacked(value);
    let mut said = Vec::new();
    choice::first(&offered(&book, value)?, &mut |choice: &[Access]| {
        let plan = shown::bytes(&shown::plan(&book, choice));
        said.push(engine.judge(bytes, user, &plan));
        false
    });
    Some(said)
}

/// Whatever operations are chosen for a closed association, Judge says that a rule is broken.
pub fn try_closed(
    engines: [&dyn Engine; 2],
    blocked: &Case,
    bytes: &[u8],
    value: u32,
) -> Result<(), Box<Difference>> {
    let said = judged(engines[0], bytes, value).unwrap_or_default();
    if !said.contains(&Ok(0)) {
        return Ok(());
    }
    let (case, got) = (blocked.clone(), Answer::Closed(value));
    Err(wrong(engines, case, Answer::NotClosed, got))
}
