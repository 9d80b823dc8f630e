//! What is refused, in which order, and the limit of a user's plans (document 02, N3, N8 and N10).

use crate::kept::*;
use books::histories::Call;
use books::named::small_shop;
use second::ledger::USERS;
use second::Refusal;

/// "an ask has the earlier refusals, then 31": Judge's, 27, 28.
#[test]
fn refusals_of_an_ask() {
    let mut kept = Kept::fresh(&small_shop());
    kept.holds = eight(MARKETING, 1);
    kept.replies(&[
        (ask(REPORT, &STATE), refused(31)),
        (ask(REPORT, &PRICE), refused(31)),
    ]);
    kept.tally.users = [counts(1_000_000, 0, 0); USERS];
    kept.replies(&[
        (ask(REPORT, &STATE), refused(28)),
        (ask(REPORT, &PRICE), refused(28)),
    ]);
    for length in [0, 1, 32, 1_023, 1_025, 2_048] {
        kept.ledger = vec![3; length];
        kept.replies(&[(ask(REPORT, &STATE), refused(27))]);
    }
    kept.replies(&[
        (ask(REPORT, &[1, 9, 0, 0]), refused(22)),
        (ask(REPORT, &[1]), refused(21)),
        (ask(0, &[1]), refused(20)),
        (ask(3, &STATE), refused(20)),
        (ask(u32::MAX, &STATE), refused(20)),
    ]);
    kept.book[2 * 512] = 9;
    let wrong_check = Refusal {
        number: 2,
        place: 2,
    };
    kept.replies(&[(ask(0, &[1]), Err(wrong_check))]);
}

/// "book refusals, 20 and 27, then 32": neither 28 nor 31 is theirs.
#[test]
fn refusals_of_a_commit_and_a_drop() {
    for settle in [commit, drop_hold] {
        let mut kept = Kept::fresh(&small_shop());
        kept.holds = eight(REPORT, 4);
        kept.tally.users = [counts(1_000_000, 0, 0); USERS];
        kept.replies(&[
            (settle(REPORT, 11), settled(11)),
            (settle(REPORT, 11), refused(32)),
            (settle(REPORT, 3), refused(32)),
            (settle(MARKETING, 4), refused(32)),
            (settle(REPORT, 0), refused(32)),
        ]);
        for length in [0, 1, 32, 1_023, 1_025, 2_048] {
            kept.ledger = vec![3; length];
            kept.replies(&[
                (settle(REPORT, 4), refused(27)),
                (settle(REPORT, 3), refused(27)),
            ]);
        }
        for user in [0, 3, 31, 32, 257, u32::MAX] {
            kept.replies(&[
                (settle(user, 4), refused(20)),
                (settle(user, 0), refused(20)),
            ]);
        }
        kept.book.push(0);
        kept.replies(&[(settle(0, 4), refused(1))]);
    }
}

/// 28 comes before the union is judged, and the sum is that of the numbers, however large.
#[test]
fn full_counts() {
    let most = u32::MAX;
    for (admitted, declined, dropped) in [
        (1_000_000, 0, 0),
        (0, 1_000_000, 0),
        (0, 0, 1_000_000),
        (999_999, 1, 0),
        (500_000, 0, 500_000),
        (333_333, 333_333, 333_334),
        (most, 0, 0),
        (most, 1, 0),
        (1, 0, most),
        (1 << 31, 1 << 30, 1 << 30),
        (most, most, most),
        (most, most, 2),
    ] {
        let mut kept = Kept::fresh(&small_shop());
        *kept.counts(REPORT) = counts(admitted, declined, dropped);
        kept.replies(&[
            (ask(REPORT, &STATE), refused(28)),
            (ask(REPORT, &PRICE), refused(28)),
        ]);
    }
}

/// The last ask before the limit, held or declined. A held plan counts at once, and still when it is settled.
#[test]
fn the_last_ask() {
    for before in [
        counts(999_999, 0, 0),
        counts(0, 999_999, 0),
        counts(0, 0, 999_999),
        counts(333_333, 333_333, 333_333),
    ] {
        let mut kept = Kept::fresh(&small_shop());
        *kept.counts(REPORT) = before;
        let [mut committed, mut dropped, mut other] = [kept.clone(), kept.clone(), kept];
        let number = 1 + before.admitted + before.dropped;
        let full = (ask(REPORT, &[]), refused(28));
        let last = [(ask(REPORT, &STATE), held(number)), full.clone()];
        committed.replies(&last);
        assert_eq!(committed.counted(), [(REPORT, before)]);
        committed.replies(&[(commit(REPORT, number), settled(number)), full.clone()]);
        dropped.replies(&last);
        dropped.replies(&[(drop_hold(REPORT, number), settled(number)), full.clone()]);
        other.replies(&[(ask(REPORT, &PRICE), declined(0b010)), full]);
        let after = |admitted, declined, dropped| {
            let mut counts = before;
            counts.admitted += admitted;
            counts.declined += declined;
            counts.dropped += dropped;
            [(REPORT, counts)]
        };
        assert_eq!(committed.counted(), after(1, 0, 0));
        assert_eq!(other.counted(), after(0, 1, 0));
        assert_eq!(dropped.counted(), after(0, 0, 1));
    }
}

/// What he holds counts, what others hold does not.
#[test]
fn held_plans_count() {
    for (user, sum, said) in [
        (REPORT, 999_995, held(999_996 + 4)),
        (REPORT, 999_996, refused(28)),
        (MARKETING, 999_996, held(999_997)),
        (MARKETING, 999_999, held(1_000_000)),
    ] {
        let mut kept = Kept::fresh(&small_shop());
        kept.holds = eight(user, 1);
        kept.holds.places[4..].fill(place(0, 0, &[]));
        *kept.counts(REPORT) = counts(sum, 0, 0);
        kept.replies(&[(ask(REPORT, &STATE), said)]);
    }
}

/// "28 looks at that user's pair alone": of two users who reach their million, each is refused by his own.
#[test]
fn one_at_his_million() {
    let mut kept = Kept::fresh(&small_shop());
    *kept.counts(REPORT) = counts(600_000, 399_990, 9);
    *kept.counts(MARKETING) = counts(1, 999_990, 6);
    let full: [Call; 2] = [ask(REPORT, &STATE), ask(REPORT, &[])];
    kept.replies(&[
        (ask(REPORT, &STATE), held(600_010)),
        (full[0].clone(), refused(28)),
        (ask(MARKETING, &STATE), held(8)),
        (ask(MARKETING, &PRICE), declined(0b011)),
        (drop_hold(REPORT, 600_010), settled(600_010)),
        (full[1].clone(), refused(28)),
        (ask(MARKETING, &[]), held(9)),
        (ask(MARKETING, &[]), refused(28)),
        (commit(MARKETING, 9), settled(9)),
        (ask(MARKETING, &[]), refused(28)),
    ]);
    let counted = [
        (REPORT, counts(600_000, 399_990, 10)),
        (MARKETING, counts(2, 999_991, 6)),
    ];
    assert_eq!(kept.counted(), counted);
}

/// Whatever the counts of all others, and the user's alone is raised.
#[test]
fn the_counts_of_others() {
    let most = u32::MAX;
    for others in [
        counts(0, 0, 0),
        counts(40_000, 40_000, 40_000),
        counts(1_000_000, 0, 0),
        counts(0, most, 0),
        counts(0, 0, most),
        counts(most, most, most),
    ] {
        let mut kept = Kept::fresh(&small_shop());
        kept.tally.users = [others; USERS];
        *kept.counts(REPORT) = counts(7, 999_980, 10);
        let mut wanted = kept.tally;
        for (call, said, after) in [
            (ask(REPORT, &STATE), held(18), counts(7, 999_980, 10)),
            (commit(REPORT, 18), settled(18), counts(8, 999_980, 10)),
            (ask(REPORT, &PRICE), declined(7), counts(8, 999_981, 10)),
            (ask(REPORT, &[]), held(19), counts(8, 999_981, 10)),
            (drop_hold(REPORT, 19), settled(19), counts(8, 999_981, 11)),
            (ask(REPORT, &STATE), refused(28), counts(8, 999_981, 11)),
        ] {
            kept.replies(&[(call, said)]);
            wanted.users[REPORT as usize] = after;
            assert_eq!(kept.tally, wanted);
        }
    }
}
