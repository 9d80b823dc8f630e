//! "two histories from fresh, alike in these, give him equal replies and equal words" (document 02, N8); they
//! "must also agree on whether eight were held at each of his asks" (N10).

use crate::answer::{self, Answer};
use crate::compare::Difference;
use crate::engine::Engine;
use crate::histories::{try_history, Past};
use crate::kept::left;
use crate::reached::Reached;
use crate::records::counts;
use crate::steps::{differ, try_step};
use books::alike::Alike;
use books::histories::History;
use books::records::Records;
use books::Case;
use second::ledger::WORDS_OF_A_USER;
use second::Counts;

/// What is stated of two histories that are alike for a user.
pub const ALIKE: Answer =
    Answer::Stated("two histories alike for a user give him equal replies, words and counts");

/// What a history gave a user.
struct Given<'a> {
    /// The places of his calls in the history.
    places: Vec<usize>,
    /// For each of his asks, whether eight were held.
    full: Vec<bool>,
    /// The replies to his calls.
    replies: Vec<Answer>,
    /// His words and counts at the end; none for a number that has none.
    kept: Option<(&'a [u64], Counts)>,
}

impl Given<'_> {
    fn to<'a>(user: u32, history: &History, past: &'a Past) -> Given<'a> {
        let calls = &history.calls;
        let own = |place: &usize| calls[*place].user == user;
        let places: Vec<usize> = (0..calls.len()).filter(own).collect();
        let asks = places.iter().filter(|&&place| calls[place].asks());
        let user = user as usize;
        let words = past.records.ledger.chunks(WORDS_OF_A_USER).nth(user);
        Given {
            full: asks.map(|&place| past.replies[place].0).collect(),
            replies: places.iter().map(|&place| past.replies[place].1).collect(),
            kept: words.map(|words| (words, counts(&past.records.tally, user))),
            places,
        }
    }

    /// Do others' calls come between his?
    fn has_others_between(&self) -> bool {
        self.places.windows(2).any(|two| two[0] + 1 < two[1])
    }
}

/// Compares each of the two histories, and tries what is stated of it; then the two give the user the
/// same. An engine that holds eight at other asks of his is found by something else.
pub fn try_alike(
    engines: [&dyn Engine; 2],
    alike: &Alike,
    reached: &mut Reached,
) -> Result<(), Box<Difference>> {
    let [one, two] = &alike.histories;
    let first = try_history(engines, one, reached)?;
    let second = try_history(engines, two, reached)?;
    let given = [
        Given::to(alike.user, one, &first),
        Given::to(alike.user, two, &second),
    ];
    if given[0].full != given[1].full {
        return Ok(());
    }
    if let Some(n) = unlike(&given) {
        let places = given.map(|given| given.places[n]);
        return Err(wrong(engines, &alike.histories, places));
    }
    let between = one != two && given.iter().any(Given::has_others_between);
    reached.holds.count_alike(&given[0].replies, between);
    Ok(())
}

/// Which of his calls has another reply first, or the last where what he is left with differs.
fn unlike([one, two]: &[Given; 2]) -> Option<usize> {
    let mut replies = one.replies.iter().zip(&two.replies);
    let differs = replies.position(|(one, two)| one != two);
    let last = one.places.len().checked_sub(1);
    differs.or(last.filter(|_| one.kept != two.kept))
}

/// A call of a history, with what the engine has left before it.
fn before(engine: &dyn Engine, history: &History, place: usize) -> Case {
    let mut kept = Records::fresh();
    for call in &history.calls[..place] {
        kept = left(engine, &call.with(&history.book, &kept));
    }
    history.calls[place].with(&history.book, &kept)
}

/// Of the calls at two places the one whose reply is wrong by itself is shown, so that it is seen again.
fn wrong(
    engines: [&dyn Engine; 2],
    histories: &[History; 2],
    places: [usize; 2],
) -> Box<Difference> {
    let [first, second] = [0, 1].map(|i| {
        let case = before(engines[0], &histories[i], places[i]);
        let answer = answer::of(engines[0], &mut case.clone());
        (case, answer)
    });
    let by_itself = try_step(engines, &first.0, first.1).is_err();
    let (case, answer) = if by_itself { first } else { second };
    let unchanged = case.records().cloned().unwrap_or_else(Records::fresh);
    let documents = ("documents", ALIKE, unchanged);
    let engine = (engines[0].name(), answer, left(engines[0], &case));
    differ(&case, [documents, engine])
}

#[cfg(test)]
mod tests {
    use super::*;
    use crate::engine::by_name;
    use crate::kept::BySecond;
    use books::alike::histories;
    use books::valid::Size;
    use books::Random;

    fn given(replies: &[Answer], kept: Option<(&'static [u64], Counts)>) -> Given<'static> {
        Given {
            places: (0..replies.len()).collect(),
            full: vec![],
            replies: replies.to_vec(),
            kept,
        }
    }

    /// The first reply that differs, and else what is left.
    #[test]
    fn where_two_are_unlike() {
        let [yes, no] = [Answer::Held(1), Answer::Declined(2)];
        let cut = Answer::Declined(1);
        let kept = Some((&[1, 2][..], Counts::default()));
        let other = Some((&[1, 3][..], Counts::default()));
        let place = |one: &[Answer], two: &[Answer]| unlike(&[given(one, kept), given(two, kept)]);
        assert_eq!(place(&[yes, no, yes], &[yes, no, yes]), None);
        assert_eq!(place(&[yes, no, no], &[yes, cut, yes]), Some(1));
        let left = |replies: &[Answer]| unlike(&[given(replies, kept), given(replies, other)]);
        assert_eq!(left(&[yes, no, yes]), Some(2));
    }

    #[test]
    fn others_between() {
        let places = |places: &[usize]| Given {
            places: places.to_vec(),
            ..given(&[], None)
        };
        assert!(places(&[0, 1, 3]).has_others_between());
        assert!(!places(&[4, 5, 6]).has_others_between() && !places(&[2]).has_others_between());
    }

    /// Whether eight are held at his asks is what the second implementation has, in both lists.
    #[test]
    fn pairs_are_alike() {
        let engine = by_name("second").expect("it is there");
        let engines = [engine.as_ref(); 2];
        let mut random = Random::new(7);
        let mut reached = Reached::default();
        for _ in 0..20 {
            let alike = histories::<BySecond>(&mut random, Size::Tiny);
            let tried = try_alike(engines, &alike, &mut reached);
            tried.unwrap_or_else(|difference| panic!("{difference}"));
        }
        assert_eq!(reached.holds.alike, 20);
    }
}
