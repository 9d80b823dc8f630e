//! What document 02's N6 states of an answer of Culprits, by the same engine's Blocked and Judge.

use crate::answer::Answer;
use crate::closed::judged;
use crate::compare::{wrong, Difference};
use crate::engine::Engine;
use books::Case;

const BLOCKED: Answer = Answer::Stated("blocked, and the asking rule is among those that close it");

/// "An unblocked rule gets that reply and no mask. The refusals are N1's." And where the choices of
/// operations are few enough to be judged, the mask is the one that they leave.
pub fn try_causes(
    engines: [&dyn Engine; 2],
    book: &[u8],
    rule: u32,
    answer: Answer,
) -> Result<(), Box<Difference>> {
    let blocked = engines[0].blocked(book, rule);
    let (Some(blocked), false) = (blocked, answer == Answer::GaveUp) else {
        return Ok(());
    };
    let wanted = match blocked {
        Err(refusal) => Answer::Refused(refusal),
        Ok(0) => Answer::Unblocked,
        Ok(value) => match (broken_by_choice(engines[0], book, value), answer) {
            (Some(choices), _) => Answer::Few(left_by_trial(&choices, rule)),
            (None, Answer::Few(mask)) if has(mask, rule) => answer,
            (None, _) => BLOCKED,
        },
    };
    if answer == wanted {
        return Ok(());
    }
    let book = book.to_vec();
    let case = Case::Culprits { book, rule };
    Err(wrong(engines, case, wanted, answer))
}

fn has(mask: u32, rule: u32) -> bool {
    rule < 32 && mask >> rule & 1 == 1
}

/// The mask of the rules that each choice of operations breaks; nothing where one is refused.
fn broken_by_choice(engine: &dyn Engine, book: &[u8], value: u32) -> Option<Vec<u32>> {
    let said = judged(engine, book, value)?;
    said.into_iter().map(Result::ok).collect()
}

/// What is left of all rules, the asking one among them: "Rules are dropped by trial from the highest
/// number down". The data stay closed while each choice breaks one that is left.
fn left_by_trial(choices: &[u32], rule: u32) -> u32 {
    let mut left = u32::MAX;
    for dropped in (0..32).rev().filter(|&other| other != rule) {
        let fewer = left & !(1 << dropped);
        if choices.iter().all(|broken| broken & fewer != 0) {
            left = fewer;
        }
    }
    left
}

#[cfg(test)]
mod tests {
    use super::*;

    /// Where no choice is left to open, nothing but the asking rule stays; of two rules that would do the
    /// lower one stays, and three stay that are needed together.
    #[test]
    fn what_is_left() {
        assert_eq!(left_by_trial(&[0b1], 0), 0b1);
        assert_eq!(left_by_trial(&[0b1110], 0), 0b11);
        assert_eq!(left_by_trial(&[0b1110, 0b1000], 0), 0b1001);
        assert_eq!(left_by_trial(&[0b0010, 0b0100, 0b1000], 0), 0b1111);
        assert_eq!(left_by_trial(&[1 << 31, 1 << 30], 31), 3 << 30);
    }
}
