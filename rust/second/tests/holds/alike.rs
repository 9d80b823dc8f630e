//! "two histories from fresh, alike in these, give him equal replies and equal words" (document 02, N8), which
//! "must also agree on whether eight were held at each of his asks" (N10).

use crate::kept::*;
use books::alike::histories;
use books::histories::{history, Act, Call, History};
use books::named::small_shop;
use books::valid::Size;
use books::Random;
use second::ledger::{words_of, USERS};
use second::Counts;

/// What a history from fresh gives a user.
#[derive(Debug, PartialEq, Eq)]
struct Given {
    /// For each of his asks, whether eight were held.
    full: Vec<bool>,
    /// His calls with their replies.
    replies: Vec<(Call, Said)>,
    /// His words at the end.
    words: Vec<u64>,
    /// His counts at the end.
    counts: Counts,
    /// How many plans he holds at the end.
    held: usize,
}

/// What it gives each user.
fn given(book: &[u8], calls: &[Call]) -> Vec<Given> {
    let mut kept = Kept::with_book(book);
    let mut replies = vec![];
    for call in calls {
        let mut places = kept.holds.places.iter();
        let full = places.all(|place| place.number != 0);
        replies.push((call, full, kept.call(call)));
    }
    let to = |user: u32| {
        let own = || replies.iter().filter(|(call, ..)| call.user == user);
        let asks = own().filter(|(call, ..)| call.asks());
        Given {
            full: asks.map(|(_, full, _)| *full).collect(),
            replies: own()
                .map(|(call, _, said)| ((*call).clone(), *said))
                .collect(),
            words: words_of(&kept.ledger, user as usize).to_vec(),
            counts: kept.tally.users[user as usize],
            held: kept.holds.of_user(user as usize).count(),
        }
    };
    (0..USERS as u32).map(to).collect()
}

/// "admitted + dropped + held + declined is the number of his asks that were not refused", each of them by its
/// replies.
fn assert_counted(given: &Given) {
    let number_of = |counted: fn(&Call, Reply) -> bool| {
        let replies = given.replies.iter();
        let counted = replies.filter(|(call, said)| said.is_ok_and(|reply| counted(call, reply)));
        counted.count() as u32
    };
    let asks = number_of(|call, _| call.asks());
    let declined = number_of(|_, reply| matches!(reply, Reply::Asked(asked) if asked.mask != 0));
    let admitted = number_of(|call, _| matches!(call.act, Act::Commit(_)));
    let dropped = number_of(|call, _| matches!(call.act, Act::Drop(_)));
    assert_eq!(given.counts, counts(admitted, declined, dropped));
    assert_eq!(admitted + dropped + given.held as u32 + declined, asks);
}

/// Each user at none of whose asks eight are held is given what his calls alone give him. There are so many.
fn assert_as_alone(History { book, calls }: &History) -> usize {
    let mut compared = 0;
    for (user, together) in given(book, calls).into_iter().enumerate() {
        assert_counted(&together);
        if together.full.contains(&true) {
            continue;
        }
        let own = calls.iter().filter(|call| call.user as usize == user);
        let own: Vec<Call> = own.cloned().collect();
        assert_eq!(given(book, &own)[user], together);
        compared += 1;
    }
    compared
}

/// Report's and Marketing's calls in turn, one of each refused.
#[test]
fn in_turn_and_alone() {
    let plans = [&STATE[..], &PRICE, &[9], &AVERAGE, &BY_PRICE, &SUM, &[]];
    let mut calls = vec![];
    for plan in plans {
        calls.extend([ask(REPORT, plan), ask(MARKETING, plan)]);
    }
    let settle = [
        commit(REPORT, 2),
        drop_hold(MARKETING, 1),
        commit(MARKETING, 2),
    ];
    calls.extend(settle);
    let history = History {
        book: small_shop().bytes(),
        calls,
    };
    assert_eq!(assert_as_alone(&history), USERS);
    let given = given(&history.book, &history.calls);
    for (user, price, sum) in [(REPORT, 0b111, 0b110), (MARKETING, 0b011, 0b010)] {
        let replies = given[user as usize].replies.iter();
        let replies: Vec<Said> = replies.map(|(_, said)| *said).collect();
        let asks = [
            held(1),
            declined(price),
            refused(21),
            held(2),
            declined(0b010),
            declined(sum),
            held(3),
        ];
        assert_eq!(replies[..7], asks);
    }
}

/// Eight held at an ask, or seven: with seven the reply is that of his calls alone.
#[test]
fn beside_seven_and_eight() {
    for (others, said) in [(7, held(1)), (8, refused(31))] {
        let mut calls: Vec<Call> = (0..others).map(|_| ask(MARKETING, &STATE)).collect();
        calls.push(ask(REPORT, &STATE));
        let book = small_shop().bytes();
        let given = given(&book, &calls);
        assert_eq!(given[REPORT as usize].replies[0].1, said);
    }
}

/// Random histories, for each user.
#[test]
fn each_user_as_alone() {
    let mut random = Random::new(11);
    let mut compared = 0;
    for size in [Size::Tiny, Size::Small, Size::Middle].repeat(10) {
        compared += assert_as_alone(&history::<Kept>(&mut random, size));
    }
    assert!(compared > 500, "{compared}");
}

/// Random pairs that are alike for a user.
#[test]
fn alike_for_a_user() {
    let mut random = Random::new(12);
    let mut both = 0;
    for size in [Size::Tiny, Size::Small, Size::Middle].repeat(10) {
        let alike = histories::<Kept>(&mut random, size);
        let histories = alike.histories.each_ref();
        let [one, two] = histories.map(|History { book, calls }| given(book, calls));
        // A number past the last user has no words.
        if let Some(one) = one.get(alike.user as usize) {
            assert_eq!(*one, two[alike.user as usize]);
            both += u32::from(one.full.contains(&true) && one.full.contains(&false));
        }
    }
    assert!(both > 5, "{both}");
}
