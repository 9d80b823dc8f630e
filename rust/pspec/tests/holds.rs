//! Ask, commit and drop: at both ends of numbers, counts and places, and on records that no list from fresh
//! leaves.

use books::named::small_shop;
use pspec::{raw, Asked, Book, Hold, Holds, Ledger, Plan, Refusal, Tally};
use std::array::from_fn;

/// What is kept between calls, and the book that fills it.
struct Kept {
    book: Book,
    ledger: Ledger,
    tally: Tally,
    holds: Holds,
}

impl Kept {
    /// Fresh, with these rules of the small shop.
    fn fresh(rules: &[usize]) -> Kept {
        let bytes = small_shop().with_rules(rules).bytes();
        Kept {
            book: Book::new(bytes).expect("it is sound"),
            ledger: Ledger::new(),
            tally: Tally::new(),
            holds: Holds::new(),
        }
    }

    fn ask(&mut self, user: u32, plan: &Plan) -> Asked {
        let (tally, holds) = (&mut self.tally, &mut self.holds);
        self.book.ask(user, plan, &self.ledger, tally, holds)
    }

    /// The number of a plan that is held.
    fn held(&mut self, user: u32, plan: &Plan) -> u32 {
        match self.ask(user, plan) {
            Asked::Held { number } => number,
            other => panic!("{other:?}"),
        }
    }

    /// The mask of a plan that is declined.
    fn declined(&mut self, user: u32, plan: &Plan) -> u32 {
        match self.ask(user, plan) {
            Asked::Declined(broken) => broken.mask(),
            other => panic!("{other:?}"),
        }
    }

    fn commit(&mut self, user: u32, number: u32) -> Result<u32, Refusal> {
        let (tally, holds) = (&mut self.tally, &mut self.holds);
        self.book
            .commit(user, number, &mut self.ledger, tally, holds)
    }

    fn drop_hold(&mut self, user: u32, number: u32) -> Result<u32, Refusal> {
        let (tally, holds) = (&mut self.tally, &mut self.holds);
        self.book
            .drop_hold(user, number, &self.ledger, tally, holds)
    }

    /// The user's plans that were admitted, declined and dropped, and how many are held.
    fn counts(&self, user: u32) -> [u32; 4] {
        let held = self.holds.iter().filter(|hold| hold.user == user).count();
        let tally = &self.tally;
        [
            tally.admitted(user),
            tally.declined(user),
            tally.dropped(user),
            held as u32,
        ]
    }

    /// All that is kept, as it is stored.
    fn bytes(&self) -> Vec<u8> {
        let (tally, holds) = (self.tally.to_bytes(), self.holds.to_bytes());
        [&self.ledger.to_bytes()[..], &tally, &holds].concat()
    }
}

fn put_out(column: u8) -> Plan {
    Plan::new([1, column, 0, 0, 4, 0, 0, 0])
}

fn state() -> Plan {
    put_out(0)
}

fn price() -> Plan {
    put_out(2)
}

fn average() -> Plan {
    Plan::new([1, 2, 0, 0, 2, 1, 0, 255, 4, 1, 0, 0])
}

/// The tally with these counts for one user (admitted, declined, dropped), and these for every other number.
fn counted(user: usize, own: [u32; 3], others: u32) -> Tally {
    let counts = own.map(|count| from_fn(|i| if i == user { count } else { others }));
    let counts: [[u32; 32]; 3] = counts;
    let bytes = counts.concat().into_iter().flat_map(u32::to_le_bytes);
    let bytes: Vec<u8> = bytes.collect();
    Tally::from_bytes(&bytes).expect("it is 384 bytes")
}

/// The hold record with these users and numbers; word 0 of place i has the bits of `words[i]`.
fn holding(users: [u32; 8], numbers: [u32; 8], words: [u64; 8]) -> Holds {
    let mut bytes: Vec<u8> = [users, numbers]
        .concat()
        .into_iter()
        .flat_map(u32::to_le_bytes)
        .collect();
    for word in words {
        bytes.extend(word.to_le_bytes());
        bytes.extend([0; 8 * 31]);
    }
    Holds::from_bytes(&bytes).expect("it is 2,112 bytes")
}

/// The places of a hold record: their users and numbers.
fn places(holds: &Holds) -> Vec<(u32, u32)> {
    let bytes = holds.to_bytes();
    let number = |i: usize| u32::from_le_bytes(from_fn(|byte| bytes[4 * i + byte]));
    (0..8).map(|i| (number(i), number(8 + i))).collect()
}

#[test]
fn empty_slices() {
    let book = small_shop().bytes();
    let refusal = |answer| raw::value(answer).expect_err("it is refused");
    let (mut tally, mut holds) = (raw::Tally::default(), raw::Holds::default());
    for (book, refused) in [
        (&[][..], Refusal::BookLength),
        (&book, Refusal::LedgerLength),
    ] {
        let asked = raw::ask(book, 1, &[], &[], &mut tally, &mut holds);
        assert_eq!((refusal(asked), raw::held(asked)), (refused, None));
        let committed = raw::commit(book, 1, 1, &mut [], &mut tally, &mut holds);
        assert_eq!(refusal(committed), refused);
        let dropped = raw::drop_hold(book, 1, 1, &[], &mut tally, &mut holds);
        assert_eq!(refusal(dropped), refused);
    }
    assert_eq!(tally, raw::Tally::default());
    assert_eq!(holds, raw::Holds::default());
}

/// Every length of a ledger but its own is refused, before a full tally, full places and a number that is
/// not held; a user who is no leaf is refused before that.
#[test]
fn ledgers_of_other_lengths() {
    let book = small_shop().bytes();
    let full = [1_000_000; 32];
    let mut tally = raw::Tally {
        admitted: full,
        declined: full,
        dropped: full,
    };
    let mut holds = raw::Holds {
        numbers: [9; 8],
        ..raw::Holds::default()
    };
    let before = (tally, holds);
    for length in [0, 1, 32, 1_023, 1_025, 2_048] {
        let mut ledger = vec![0; length];
        for (user, refused) in [(1, 27 << 40), (0, 20 << 40), (3, 20 << 40)] {
            let asked = raw::ask(&book, user, &[], &ledger, &mut tally, &mut holds);
            let dropped = raw::drop_hold(&book, user, 1, &ledger, &mut tally, &mut holds);
            let committed = raw::commit(&book, user, 1, &mut ledger, &mut tally, &mut holds);
            assert_eq!([asked, dropped, committed], [refused; 3]);
        }
        assert!(ledger.iter().all(|&word| word == 0));
    }
    assert_eq!((tally, holds), before);
}

/// A ledger, a tally and a hold record in the middle of others, with something in every word and count.
/// Places 3 and 5 are empty for their number, although they have a user and words.
#[derive(Debug, PartialEq)]
struct Around {
    ledger: Vec<u64>,
    tallies: [raw::Tally; 3],
    holds: [raw::Holds; 3],
}

impl Around {
    fn new() -> Around {
        let tally = raw::Tally {
            admitted: from_fn(|user| 100 + user as u32),
            declined: from_fn(|user| 200 + user as u32),
            dropped: from_fn(|user| 300 + user as u32),
        };
        let holds = raw::Holds {
            users: from_fn(|place| 40 + place as u32),
            numbers: [7, 7, 7, 0, 7, 0, 7, 7],
            words: [1 << 62; 256],
        };
        Around {
            ledger: vec![1 << 63; 1_030],
            tallies: [tally; 3],
            holds: [holds; 3],
        }
    }

    /// A call with the records in the middle.
    fn call<C>(&mut self, call: C) -> u64
    where
        C: Fn(&mut [u64], &mut raw::Tally, &mut raw::Holds) -> u64,
    {
        let (tally, holds) = (&mut self.tallies[1], &mut self.holds[1]);
        call(&mut self.ledger[4..1_028], tally, holds)
    }

    /// Place 3: its user, its number, and the first of its words, the others being zero.
    fn place_3(&mut self, user: u32, number: u32, word: u64) {
        let holds = &mut self.holds[1];
        (holds.users[3], holds.numbers[3]) = (user, number);
        holds.words[3 * 32..4 * 32].fill(0);
        holds.words[3 * 32] = word;
    }
}

/// Neither around the ledger, the tally and the hold record nor at other users and places in them.
#[test]
fn nothing_but_the_users_own_is_written() {
    let book = small_shop().bytes();
    let (mut found, mut wanted) = (Around::new(), Around::new());
    let ask = |found: &mut Around, plan: Plan| {
        found.call(|ledger, tally, holds| raw::ask(&book, 2, plan.bytes(), ledger, tally, holds))
    };

    // 1 + 102 admitted + 302 dropped + none held
    assert_eq!(ask(&mut found, state()), (1 << 32) + 405);
    wanted.place_3(2, 405, 1 << 2);
    assert_eq!(found, wanted);

    assert_eq!(ask(&mut found, price()), 0b11);
    wanted.tallies[1].declined[2] = 203;
    assert_eq!(found, wanted);

    let committed =
        found.call(|ledger, tally, holds| raw::commit(&book, 2, 405, ledger, tally, holds));
    assert_eq!(committed, 405);
    wanted.ledger[4 + 64] |= 1 << 2;
    wanted.tallies[1].admitted[2] = 103;
    wanted.place_3(0, 0, 0);
    assert_eq!(found, wanted);

    assert_eq!(ask(&mut found, average()), (1 << 32) + 406);
    let dropped =
        found.call(|ledger, tally, holds| raw::drop_hold(&book, 2, 406, ledger, tally, holds));
    assert_eq!(dropped, 406);
    wanted.tallies[1].dropped[2] = 303;
    assert_eq!(found, wanted);
}

/// Hold, ask the partner, drop, ask again, commit; and the same beside another user's holds.
#[test]
fn a_held_plan_counts_as_admitted() {
    let mut kept = Kept::fresh(&[0, 2]);
    assert!(kept.book.judge(1, &price()).opens());
    assert_eq!(kept.held(1, &state()), 1);
    assert_eq!(kept.declined(1, &price()), 0b11);
    assert_eq!(kept.held(2, &price()), 1);
    assert_eq!(kept.declined(2, &state()), 0b01);
    assert_eq!(kept.drop_hold(1, 1), Ok(1));
    assert_eq!(kept.held(1, &price()), 2);
    assert_eq!(kept.declined(1, &state()), 0b11);
    assert_eq!(kept.commit(1, 2), Ok(2));
    assert_eq!(kept.declined(1, &state()), 0b11);
    assert_eq!(kept.counts(1), [1, 3, 1, 0]);
    assert_eq!(kept.counts(2), [0, 1, 0, 1]);
    assert_eq!(
        Ok(kept.ledger.accesses(1)),
        kept.book.flows(&price()),
        "of the committed plan alone"
    );
    assert_eq!(kept.ledger.accesses(2).iter().count(), 0);
}

/// A hold has the accesses of its plan, not those of the user's words or other holds.
#[test]
fn a_hold_keeps_the_accesses_as_asked() {
    let mut kept = Kept::fresh(&[0, 1, 2]);
    let city = put_out(1);
    let first = kept.held(1, &state());
    assert_eq!(kept.commit(1, first), Ok(1));
    assert_eq!(kept.held(1, &city), 2);
    assert_eq!(kept.held(1, &average()), 3);
    let of = |plan: &Plan| kept.book.flows(plan).expect("it is a plan");
    let hold = |number, plan: &Plan| Hold {
        user: 1,
        number,
        accesses: of(plan),
    };
    let holds: Vec<Hold> = kept.holds.iter().collect();
    assert_eq!(holds, [hold(2, &city), hold(3, &average())]);
}

/// Refused users and plans hold nothing and change nothing.
#[test]
fn refusals_change_nothing() {
    let mut kept = Kept::fresh(&[0, 2]);
    assert_eq!(kept.held(1, &state()), 1);
    let before = kept.bytes();
    for (user, plan, refusal) in [
        (0, &price(), Refusal::NoUser),
        (3, &price(), Refusal::NoUser),
        (u32::MAX, &price(), Refusal::NoUser),
        (1, &Plan::new([1, 2, 0]), Refusal::PlanLength),
        (1, &Plan::new([4, 0, 0, 0]), Refusal::FaultyRow { row: 0 }),
    ] {
        assert_eq!(kept.ask(user, plan), Asked::Refused(refusal));
    }
    for (user, number, refusal) in [
        (0, 1, Refusal::NoUser),
        (32, 1, Refusal::NoUser),
        (1, 0, Refusal::NotHeld),
        (1, 2, Refusal::NotHeld),
        (1, u32::MAX, Refusal::NotHeld),
        (2, 1, Refusal::NotHeld),
        (2, 0, Refusal::NotHeld),
    ] {
        assert_eq!(kept.commit(user, number), Err(refusal));
        assert_eq!(kept.drop_hold(user, number), Err(refusal));
    }
    assert_eq!(kept.bytes(), before);
}

/// A number is good for one commit or one drop.
#[test]
fn a_number_is_settled_once() {
    let mut kept = Kept::fresh(&[0, 1, 2]);
    let not_held = Err(Refusal::NotHeld);
    assert_eq!((kept.held(1, &state()), kept.held(1, &state())), (1, 2));
    assert_eq!(kept.commit(1, 1), Ok(1));
    assert_eq!(kept.drop_hold(1, 2), Ok(2));
    let before = kept.bytes();
    for number in [0, 1, 2, 3] {
        assert_eq!(kept.commit(1, number), not_held);
        assert_eq!(kept.drop_hold(1, number), not_held);
    }
    assert_eq!(kept.bytes(), before);
    assert_eq!(kept.counts(1), [1, 0, 1, 0]);
}

/// 1 + admitted + dropped + held: no number comes twice, also where lower ones are settled first or last.
#[test]
fn numbers_are_not_used_again() {
    let mut kept = Kept::fresh(&[0, 1, 2]);
    let plan = Plan::default();
    assert_eq!(kept.held(1, &plan), 1);
    assert_eq!(kept.held(1, &plan), 2);
    assert_eq!(kept.drop_hold(1, 1), Ok(1));
    assert_eq!(kept.held(1, &plan), 3);
    assert_eq!(kept.commit(1, 3), Ok(3));
    assert_eq!(kept.held(1, &plan), 4);
    assert_eq!(kept.declined(1, &price()), 0b10);
    assert_eq!(kept.held(1, &plan), 5);
    assert_eq!(kept.held(2, &plan), 1);
    for number in [5, 2, 4] {
        assert_eq!(kept.drop_hold(1, number), Ok(number));
    }
    assert_eq!(kept.held(1, &plan), 6);
    assert_eq!(kept.counts(1), [1, 1, 4, 1]);
    assert_eq!(places(&kept.holds)[..3], [(1, 6), (0, 0), (0, 0)]);
}

/// Eight are held over all users; a freed place is the next one's, the lowest first.
#[test]
fn nine_asks() {
    let mut kept = Kept::fresh(&[0, 1, 2]);
    let plan = Plan::default();
    for number in 1..=4 {
        assert!(!kept.holds.is_full());
        assert_eq!((kept.held(1, &plan), kept.held(2, &plan)), (number, number));
    }
    assert!(kept.holds.is_full());
    let before = kept.bytes();
    let full = Asked::Refused(Refusal::PlacesFull);
    // Also for a plan that would be declined.
    for (user, plan) in [(1, &plan), (2, &plan), (1, &price())] {
        assert_eq!(kept.ask(user, plan), full);
    }
    assert_eq!(kept.ask(0, &plan), Asked::Refused(Refusal::NoUser));
    assert_eq!(
        kept.ask(1, &Plan::new([1])),
        Asked::Refused(Refusal::PlanLength)
    );
    assert_eq!(kept.bytes(), before);

    assert_eq!(kept.commit(2, 3), Ok(3)); // place 5
    assert_eq!(kept.drop_hold(1, 2), Ok(2)); // place 2
    assert!(!kept.holds.is_full());
    assert_eq!(kept.declined(1, &price()), 0b10);
    assert_eq!((kept.held(2, &plan), kept.held(1, &plan)), (5, 5));
    assert_eq!(kept.ask(1, &plan), full);
    let wanted = [
        (1, 1),
        (2, 1),
        (2, 5),
        (2, 2),
        (1, 3),
        (1, 5),
        (1, 4),
        (2, 4),
    ];
    assert_eq!(places(&kept.holds), wanted);
    assert_eq!(kept.counts(1), [0, 1, 1, 4]);
    assert_eq!(kept.counts(2), [1, 0, 0, 4]);
}

/// User 1 with these counts and so many held plans, the lowest places; the last is another's, so long as one is
/// left empty. Every other number has these counts.
fn counts_and_holds(counts: [u32; 3], held: usize, others: u32) -> Kept {
    let users = from_fn(|i| if i < held { 1 } else { 2 });
    let numbers = from_fn(|i| u32::from(i < held || i == 7 && held < 7));
    Kept {
        tally: counted(1, counts, others),
        holds: holding(users, numbers, [0; 8]),
        ..Kept::fresh(&[0, 1, 2])
    }
}

/// What others have, in the tests of a user's own counts.
const OTHERS: [u32; 4] = [0, 999_999, 1_000_000, u32::MAX];

/// The sum below its limit, with the number of the next hold.
#[test]
fn counts_below_their_limit() {
    for (counts, held, number) in [
        ([999_999, 0, 0], 0, 1_000_000),
        ([0, 0, 999_999], 0, 1_000_000),
        ([0, 999_999, 0], 0, 1),
        ([333_333, 333_333, 333_333], 0, 666_667),
        ([999_998, 0, 0], 1, 1_000_000),
        ([100, 999_800, 92], 7, 200),
    ] {
        for others in OTHERS {
            let mut kept = counts_and_holds(counts, held, others);
            assert_eq!(kept.held(1, &Plan::default()), number);
            assert_eq!(kept.tally, counted(1, counts, others));
        }
    }
}

/// The sum at its limit and past it, with held plans in it, whatever others have.
#[test]
fn full_counts() {
    let max = u32::MAX;
    for (counts, held) in [
        ([100, 999_800, 93], 7),
        ([999_999, 0, 0], 1),
        ([0, 999_999, 0], 1),
        ([400_000, 300_000, 300_000], 0),
        ([0, 1_000_000, 0], 0),
        // Sums that are small when cut to 32 bits, of any two counts and of all three.
        ([max, 1, 0], 0),
        ([max, 0, 1], 0),
        ([0, 1, max], 0),
        ([max, 0, 0], 1),
        ([1 << 31, 1 << 30, 1 << 30], 0),
        ([max; 3], 7),
    ] {
        for others in OTHERS {
            let mut kept = counts_and_holds(counts, held, others);
            let before = kept.bytes();
            assert_eq!(
                kept.ask(1, &Plan::default()),
                Asked::Refused(Refusal::CountsFull)
            );
            assert_eq!(kept.bytes(), before);
        }
    }
}

/// 28 comes before 31, and neither stops a commit or a drop.
#[test]
fn full_counts_and_full_places() {
    let mut kept = Kept::fresh(&[0, 1, 2]);
    kept.tally = counted(1, [0, 999_992, 0], 0);
    for number in 1..=8 {
        assert_eq!(kept.held(1, &Plan::default()), number);
    }
    assert_eq!(
        kept.ask(1, &Plan::default()),
        Asked::Refused(Refusal::CountsFull)
    );
    assert_eq!(
        kept.ask(2, &Plan::default()),
        Asked::Refused(Refusal::PlacesFull)
    );
    assert_eq!(kept.commit(1, 8), Ok(8));
    assert_eq!(kept.drop_hold(1, 1), Ok(1));
    assert_eq!(
        kept.ask(1, &Plan::default()),
        Asked::Refused(Refusal::CountsFull)
    );
    assert_eq!(kept.held(2, &Plan::default()), 1);
    assert_eq!(kept.counts(1), [1, 999_992, 1, 6]);
    assert_eq!(places(&kept.holds)[0], (2, 1));
}

/// One user comes to his million, and another goes on.
#[test]
fn full_for_one_user() {
    let mut kept = Kept::fresh(&[0, 1, 2]);
    kept.tally = counted(1, [400_000, 399_999, 200_000], 0);
    assert_eq!(kept.declined(1, &price()), 0b10);
    let full = Asked::Refused(Refusal::CountsFull);
    for plan in [&price(), &state(), &Plan::default()] {
        assert_eq!(kept.ask(1, plan), full);
    }
    assert_eq!(kept.declined(2, &price()), 0b10);
    assert_eq!(kept.held(2, &state()), 1);
    assert_eq!(kept.counts(1), [400_000, 400_000, 200_000, 0]);
    assert_eq!(kept.counts(2), [0, 1, 0, 1]);
}

/// A count at its top value stays there.
#[test]
fn counts_at_the_top() {
    let mut kept = Kept::fresh(&[0, 1, 2]);
    let holds = holding(
        [1; 8],
        [3, 4, 0, 0, 0, 0, 0, 0],
        [1 << 2, 1 << 3, 0, 0, 0, 0, 0, 0],
    );
    let top = counted(1, [u32::MAX, 5, u32::MAX], 6);
    (kept.tally, kept.holds) = (top, holds);
    assert_eq!(kept.commit(1, 4), Ok(4));
    assert_eq!(kept.drop_hold(1, 3), Ok(3));
    assert_eq!(kept.tally, top);
    assert_eq!(kept.ledger.accesses(1).words()[0], 1 << 3);
    assert_eq!(kept.holds.iter().count(), 0);
    assert_eq!(kept.ask(1, &state()), Asked::Refused(Refusal::CountsFull));
}

/// Of two places alike the lowest is meant, whatever its number; the other is the next.
#[test]
fn places_alike() {
    for number in [1, 1_000_001, u32::MAX] {
        let mut kept = Kept::fresh(&[0, 1, 2]);
        let words = from_fn(|place| 1 << (10 + place));
        kept.holds = holding([2, 1, 0, 1, 1, 40, 33, 1], [number; 8], words);
        assert_eq!(kept.commit(1, number), Ok(number)); // place 1
        assert_eq!(kept.ledger.accesses(1).words()[0], 1 << 11);
        assert_eq!(kept.drop_hold(1, number), Ok(number)); // place 3
        assert_eq!(kept.commit(1, number), Ok(number)); // place 4
        assert_eq!(kept.ledger.accesses(1).words()[0], 1 << 11 | 1 << 14);
        assert_eq!(kept.counts(1), [2, 0, 1, 1]);
        let left = [(2, 0), (0, 2), (40, 5), (33, 6), (1, 7)];
        let held: Vec<(u32, u64)> = kept
            .holds
            .iter()
            .map(|hold| (hold.user, hold.accesses.words()[0]))
            .collect();
        assert_eq!(held, left.map(|(user, place)| (user, 1 << (10 + place))));
        // User 0 is no leaf: what is held for him stays.
        assert_eq!(kept.commit(0, number), Err(Refusal::NoUser));
    }
}

/// Eight holds of nobody fill the places too, and nobody can settle them.
#[test]
fn holds_of_nobody() {
    let mut kept = Kept::fresh(&[0, 1, 2]);
    let nobody = from_fn(|place| 32 + place as u32);
    kept.holds = holding(nobody, [1; 8], [1 << 4; 8]);
    assert!(kept.holds.is_full());
    let before = kept.bytes();
    for user in [1, 2] {
        assert_eq!(
            kept.ask(user, &state()),
            Asked::Refused(Refusal::PlacesFull)
        );
        assert_eq!(kept.commit(user, 1), Err(Refusal::NotHeld));
    }
    for user in nobody {
        assert_eq!(kept.commit(user, 1), Err(Refusal::NoUser));
        assert_eq!(kept.drop_hold(user, 1), Err(Refusal::NoUser));
    }
    assert_eq!(kept.bytes(), before);
}

/// A place whose number is 0 is empty, also with a user and words: they do not count, and go with the next
/// hold.
#[test]
fn an_empty_place_with_something_in_it() {
    let mut kept = Kept::fresh(&[0, 2]);
    kept.holds = holding([1; 8], [0; 8], [1 << 4; 8]);
    assert_eq!(kept.holds.iter().count(), 0);
    assert_eq!(kept.commit(1, 0), Err(Refusal::NotHeld));
    assert_eq!(kept.drop_hold(1, 0), Err(Refusal::NotHeld));
    assert_eq!(kept.held(1, &state()), 1);
    let holds: Vec<Hold> = kept.holds.iter().collect();
    let accesses = kept.book.flows(&state()).expect("it is a plan");
    let (user, number) = (1, 1);
    let wanted = Hold {
        user,
        number,
        accesses,
    };
    assert_eq!(holds, [wanted]);
}

/// Committing tests no rule: what stands in a hold record is taken as it is.
#[test]
fn committing_tests_no_rule() {
    let mut kept = Kept::fresh(&[0, 1, 2]);
    kept.holds = holding([2; 8], [1, 0, 0, 0, 0, 0, 0, 0], [1 << 2 | 1 << 4; 8]);
    assert_eq!(kept.declined(2, &Plan::default()), 0b11);
    assert_eq!(kept.commit(2, 1), Ok(1));
    assert_eq!(kept.ledger.accesses(2).words()[0], 1 << 2 | 1 << 4);
    assert_eq!(kept.declined(2, &Plan::default()), 0b11);
    assert_eq!(kept.held(1, &Plan::default()), 1);
}

/// The same calls of a user, alone and with those of others between, so long as eight are never held.
#[test]
fn others_change_nothing_for_a_user() {
    let given = |between: &[&Plan]| {
        let mut kept = Kept::fresh(&[0, 1, 2]);
        let mut replies = Vec::new();
        for plan in [&state(), &price(), &average()] {
            for plan in between {
                let number = kept.ask(2, plan).number();
                let _ = kept.commit(2, number);
            }
            replies.push(kept.ask(1, plan));
        }
        let settled = [kept.commit(1, 2), kept.drop_hold(1, 1), kept.commit(1, 3)];
        let own = (kept.ledger.accesses(1), kept.counts(1));
        (replies, settled, own, kept.counts(2))
    };
    let (replies, settled, own, others) = given(&[]);
    let numbers: Vec<u32> = replies.iter().map(|asked| asked.number()).collect();
    assert_eq!((numbers, others), (vec![1, 0, 2], [0; 4]));
    assert_eq!(settled, [Ok(2), Ok(1), Err(Refusal::NotHeld)]);
    assert_eq!(own.1, [1, 1, 1, 0]);
    let wanted = (replies, settled, own, [3, 3, 0, 0]);
    assert_eq!(given(&[&price(), &state()]), wanted);
}

/// What is stored comes back, and the low byte comes first.
#[test]
fn a_ledger_is_stored_and_read_again() {
    let mut kept = Kept::fresh(&[0, 1, 2]);
    assert_eq!(kept.held(2, &state()), 1);
    assert_eq!(kept.ledger, Ledger::default());
    assert_eq!(kept.commit(2, 1), Ok(1));
    let stored = kept.ledger.to_bytes();
    let set: Vec<usize> = (0..stored.len()).filter(|&i| stored[i] != 0).collect();
    assert_eq!((set, stored[8 * 64]), (vec![8 * 64], 1 << 2));
    assert_eq!(Ledger::from_bytes(&stored), Ok(kept.ledger));

    let bytes: Vec<u8> = (0..Ledger::BYTES).map(|i| (i % 251) as u8).collect();
    let any = Ledger::from_bytes(&bytes).expect("it is as long");
    assert_eq!(any.to_bytes(), bytes);
    assert_eq!(any.accesses(0).words()[1], 0x0F0E_0D0C_0B0A_0908);
    assert_eq!(any.accesses(31).words()[31].to_le_bytes(), bytes[8_184..]);
    assert!((32..40).all(|user| any.accesses(user).iter().next().is_none()));
    assert!(any.accesses(u32::MAX).iter().next().is_none());
    for length in [0, 1, Ledger::BYTES - 8, Ledger::BYTES - 1] {
        assert!(Ledger::from_bytes(&bytes[..length]).is_err());
    }
    assert!(Ledger::from_bytes(&[&bytes[..], &[0]].concat()).is_err());
}

/// The admitted counts come first, then the declined, then the dropped ones, each by user number; the last
/// user has the last of all three.
#[test]
fn a_tally_is_stored_and_read_again() {
    let mut kept = Kept::fresh(&[0, 1, 2]);
    let mut shop = small_shop();
    shop.users = vec![0; 32];
    kept.book = Book::new(shop.bytes()).expect("it is sound");
    for number in 1..=5 {
        assert_eq!(kept.held(31, &state()), number);
    }
    assert_eq!(kept.declined(31, &price()), 0b11);
    assert_eq!((kept.commit(31, 5), kept.commit(31, 1)), (Ok(5), Ok(1)));
    for number in 2..=4 {
        assert_eq!(kept.drop_hold(31, number), Ok(number));
    }
    let number = kept.held(2, &state());
    assert_eq!(kept.commit(2, number), Ok(1));
    let mut stored = [0; 384];
    (stored[4 * 31], stored[128 + 4 * 31]) = (2, 1);
    (stored[256 + 4 * 31], stored[4 * 2]) = (3, 1);
    assert_eq!(kept.tally.to_bytes(), stored);
    assert_eq!(Tally::from_bytes(&stored), Ok(kept.tally));

    let bytes: Vec<u8> = (0..384u32).map(|i| (i % 251) as u8).collect();
    let any = Tally::from_bytes(&bytes).expect("it is as long");
    assert_eq!(any.to_bytes(), bytes[..]);
    let counts = |user| [any.admitted(user), any.declined(user), any.dropped(user)];
    assert_eq!(counts(0), [0x0302_0100, 0x8382_8180, 0x0807_0605]);
    assert_eq!(counts(31), [0x7F7E_7D7C, 0x0403_0201, 0x8483_8281]);
    for past in [32, 33, 63, 64, 95, 96, u32::MAX] {
        assert_eq!(counts(past), [0; 3]);
    }
    for length in [0, 8, 128, 256, 383] {
        assert!(Tally::from_bytes(&bytes[..length]).is_err());
    }
    assert!(Tally::from_bytes(&[&bytes[..], &[0]].concat()).is_err());
}

/// The users of all places come first, then their numbers, then the words of each.
#[test]
fn a_hold_record_is_stored_and_read_again() {
    let mut kept = Kept::fresh(&[0, 1, 2]);
    assert_eq!(kept.holds.to_bytes(), [0; 2_112]);
    assert_eq!((kept.held(2, &state()), kept.held(1, &average())), (1, 1));
    let mut stored = [0; 2_112];
    (stored[0], stored[4]) = (2, 1);
    (stored[32], stored[36]) = (1, 1);
    (stored[64], stored[64 + 256 + 8]) = (1 << 2, 1 << 4);
    assert_eq!(kept.holds.to_bytes(), stored);
    assert_eq!(Holds::from_bytes(&stored), Ok(kept.holds));

    let bytes: Vec<u8> = (0..Holds::BYTES).map(|i| (i % 251) as u8).collect();
    let any = Holds::from_bytes(&bytes).expect("it is as long");
    assert_eq!(any.to_bytes(), bytes[..]);
    let holds: Vec<Hold> = any.iter().collect();
    assert_eq!((holds.len(), any.is_full()), (8, true));
    assert_eq!((holds[0].user, holds[0].number), (0x0302_0100, 0x2322_2120));
    assert_eq!((holds[7].user, holds[7].number), (0x1F1E_1D1C, 0x3F3E_3D3C));
    assert_eq!(holds[0].accesses.words()[0], 0x4746_4544_4342_4140);
    let last = holds[7].accesses.words()[31];
    assert_eq!(last.to_le_bytes(), bytes[2_104..]);
    for length in [0, 64, 256, 384, 2_111] {
        assert!(Holds::from_bytes(&bytes[..length]).is_err());
    }
    assert!(Holds::from_bytes(&[&bytes[..], &[0]].concat()).is_err());
}
