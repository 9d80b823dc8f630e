//! Rules that arrive at document 01's small shop and leave it, worked out by hand (document 02, N11).

use books::draft::{seal, BLOCK};
use books::named::small_shop;
use second::editing::{Record, BYTES};
use second::{arrive, arrive_by, depart, depart_by, idle, Refusal};

/// Every reply and refusal of an edit.
type Reply = Result<u32, Refusal>;

/// The block of a rule of the small shop.
fn block(rule: usize) -> Vec<u8> {
    small_shop().rules[rule].block()
}

/// A record of the small shop with these rules, in this order, and a mask.
fn record(rules: &[usize], marks: u32) -> Record {
    let book = small_shop().with_rules(rules).bytes();
    let mut blocks = Box::new([0; BYTES]);
    blocks[..book.len()].copy_from_slice(&book);
    Record {
        blocks,
        rules: rules.len() as u32,
        marks,
    }
}

fn refused(number: u32, place: u32) -> Reply {
    Err(Refusal { number, place })
}

/// Whatever breaks rule 0 or rule 2 has a price that is not averaged, and so breaks rule 1 too: beside rule 1 both
/// are idle. Without it each breaks alone: rule 0 by Marketing with a raw price, rule 2 by Report with a sum. Rule
/// 1 is broken alone by a price without an address.
fn marks(rules: &[usize]) -> u32 {
    let idle = |rule: &usize| *rule != 1 && rules.contains(&1);
    let bits = rules.iter().enumerate().filter(|(_, rule)| idle(rule));
    bits.map(|(place, _)| 1 << place).sum()
}

const ORDERS: [[usize; 3]; 6] = [
    [0, 1, 2],
    [0, 2, 1],
    [1, 0, 2],
    [1, 2, 0],
    [2, 0, 1],
    [2, 1, 0],
];

/// The record is as if the rules had been there from the first.
fn assert_is(after: &Record, rules: &[usize]) {
    assert_eq!(*after, record(rules, marks(rules)), "{rules:?}");
}

#[test]
fn built_rule_by_rule() {
    let mut shop = record(&[], 0);
    for (rule, marks) in [(0, 0), (1, 0b001), (2, 0b101)] {
        assert_eq!(arrive(&mut shop, &block(rule)), Ok(marks));
        assert_eq!(shop.marks, marks);
    }
    assert_is(&shop, &[0, 1, 2]);
}

#[test]
fn built_in_every_order() {
    for order in ORDERS {
        let mut shop = record(&[], 0);
        for n in 1..=3 {
            let reply = arrive(&mut shop, &block(order[n - 1]));
            assert_eq!(reply, Ok(marks(&order[..n])), "{order:?}");
            assert_is(&shop, &order[..n]);
        }
    }
}

#[test]
fn taken_down_in_every_order() {
    for built in ORDERS {
        for order in ORDERS {
            let mut left = built.to_vec();
            let mut shop = record(&left, marks(&left));
            for rule in order {
                let number = left.iter().position(|&r| r == rule).expect("it is there");
                left.remove(number);
                assert_eq!(depart(&mut shop, number as u32), Ok(marks(&left)));
                assert_is(&shop, &left);
            }
        }
    }
}

/// Without rule 1 none is idle; it makes both others so. When it leaves, both are needed.
#[test]
fn two_marks_at_once() {
    let mut shop = record(&[2, 0], 0);
    assert_eq!(arrive(&mut shop, &block(1)), Ok(0b011));
    assert_eq!(depart(&mut shop, 2), Ok(0));
    assert_is(&shop, &[2, 0]);
}

/// "Deleting two equal rules: each is idle beside the other, not both together."
#[test]
fn equal_rules() {
    let mut shop = record(&[1], 0);
    assert_eq!(arrive(&mut shop, &block(1)), Ok(0b11));
    assert_eq!(arrive(&mut shop, &block(0)), Ok(0b111));
    assert_eq!(depart(&mut shop, 0), Ok(0b10));
    assert_is(&shop, &[1, 0]);
}

/// Rule 1 is needed, rules 0 and 2 are idle beside it. A set mark of a rule that is there stays; a clear one, and
/// the bit of the new rule, are Idle's; bits past it go.
#[test]
fn wrong_masks_at_an_arrival() {
    for (before, arrives, handed_in, wanted) in [
        (&[1][..], 0, 0b1, 0b11),
        (&[1], 0, 0b0, 0b10),
        (&[1], 0, 0b10, 0b10),
        (&[0, 1], 2, 0b00, 0b101),
        (&[0, 1], 2, 0b10, 0b111),
        (&[0, 2], 1, 0xFFFF_FFFC, 0b011),
        (&[0, 2], 1, 0xFFFF_FFFF, 0b011),
        (&[], 1, 0xFFFF_FFFF, 0),
        (&[0], 2, 0xFFFF_FFFF, 0b01),
    ] {
        let mut shop = record(before, handed_in);
        let told = format!("{before:?}, {arrives}, {handed_in:#x}");
        assert_eq!(arrive(&mut shop, &block(arrives)), Ok(wanted), "{told}");
        let after = [before, &[arrives]].concat();
        assert_eq!(shop, record(&after, wanted), "{told}");
    }
}

/// A clear mark of a rule that stays is kept, at its new number; a set one is Idle's.
#[test]
fn wrong_masks_at_a_departure() {
    let all = [0, 1, 2];
    for (leaves, handed_in, wanted) in [
        (0, 0b000, 0b00),
        (0, 0b111, 0b10),
        (0, 0b100, 0b10),
        (0, 0b010, 0b00),
        (0, 0b001, 0b00),
        (1, 0xFFFF_FFFF, 0b00),
        (2, 0xFFFF_FFFF, 0b01),
        (2, 0xFFFF_FFFE, 0b00),
        (2, 0b101, 0b01),
    ] {
        let mut shop = record(&all, handed_in);
        let told = format!("{leaves}, {handed_in:#x}");
        assert_eq!(depart(&mut shop, leaves), Ok(wanted), "{told}");
        let mut stay = all.to_vec();
        stay.remove(leaves as usize);
        assert_eq!(shop, record(&stay, wanted), "{told}");
    }
}

/// Equal rules up to 32 and down again. One is needed by itself, and each is idle beside others.
#[test]
fn thirty_two_rules() {
    let mut shop = record(&[], 0);
    let all = |n: u32| if n > 1 { u32::MAX >> (32 - n) } else { 0 };
    for n in 1..=32 {
        assert_eq!(arrive(&mut shop, &block(1)), Ok(all(n)));
        assert_eq!(shop.rules, n);
    }
    let full = record(&[1; 32], u32::MAX);
    assert_eq!(shop, full);
    for another in [block(1), block(0), vec![], vec![9; BLOCK]] {
        assert_eq!(arrive(&mut shop, &another), refused(33, 0));
        assert_eq!(shop, full);
    }
    for n in (0..32).rev() {
        assert_eq!(depart(&mut shop, n / 2), Ok(all(n)));
    }
    assert_eq!(shop, record(&[], 0));
    assert_eq!(depart(&mut shop, 0), refused(24, 0));
}

/// 33 comes before all else, and 1 for the number before anything is read.
#[test]
fn numbers_above_32() {
    for rules in [33, 36, 256, 1 << 31, u32::MAX] {
        let mut wrong = record(&[0, 1, 2], 0b101);
        wrong.rules = rules;
        nothing_changes(&wrong, &block(1), refused(33, 0));
        nothing_changes(&wrong, &[], refused(33, 0));
        nothing_leaves(&wrong, 0, refused(1, 0));
        wrong.blocks.fill(0xEE);
        nothing_changes(&wrong, &block(1), refused(33, 0));
        nothing_leaves(&wrong, u32::MAX, refused(1, 0));
    }
    let mut wrong = record(&[0, 1, 2], 0b101);
    wrong.rules = 32;
    nothing_changes(&wrong, &block(1), refused(33, 0));
    // A block of zero bytes has a right check and a wrong kind.
    nothing_leaves(&wrong, 0, refused(3, 7));
}

/// An arrival is refused so and changes nothing.
fn nothing_changes(before: &Record, block: &[u8], wanted: Reply) {
    let mut after = before.clone();
    assert_eq!(arrive(&mut after, block), wanted);
    assert_eq!(after, *before);
}

/// A departure is refused so and changes nothing.
fn nothing_leaves(before: &Record, rule: u32, wanted: Reply) {
    let mut after = before.clone();
    assert_eq!(depart(&mut after, rule), wanted);
    assert_eq!(after, *before);
}

/// Bytes behind the book are no fault, and no accepted edit leaves them.
#[test]
fn bytes_behind() {
    let book = 7 * BLOCK;
    let mut shop = record(&[0, 1, 2], 0b101);
    shop.blocks[book..].fill(0xEE);
    let dirty = shop.clone();
    nothing_changes(&dirty, &[], refused(1, 0));
    nothing_leaves(&dirty, 3, refused(24, 0));
    assert_eq!(depart(&mut shop, 2), Ok(0b01));
    assert_is(&shop, &[0, 1]);
    let mut shop = dirty;
    assert_eq!(arrive(&mut shop, &block(2)), Ok(0b1101));
    assert_is(&shop, &[0, 1, 2, 2]);
}

#[test]
fn lengths_of_a_block() {
    let mut shop = record(&[0], 0);
    shop.blocks[0] = 9;
    for length in [0, 1, 511, 513, 1_024] {
        let mut block = block(1);
        block.resize(length, 0);
        nothing_changes(&shop, &block, refused(1, 0));
        nothing_changes(&record(&[0], 0), &block, refused(1, 0));
    }
    nothing_changes(&shop, &block(1), refused(2, 0));
    assert_eq!(arrive(&mut record(&[0], 0), &block(1)), Ok(0b01));
}

/// All checks of the book with the new block come before all kinds, and all kinds before what the blocks say.
#[test]
fn refusals_of_the_book_with_the_new_block() {
    let mut wrong_check = block(2);
    wrong_check[510] ^= 1;
    let mut wrong_kind = block(2);
    wrong_kind[0] = 4;
    seal(&mut wrong_kind);
    let mut shop = record(&[0, 1], 0b01);
    nothing_changes(&shop, &wrong_check, refused(2, 6));
    nothing_changes(&shop, &wrong_kind, refused(3, 6));
    // An action 4 in rule 1.
    shop.blocks[5 * BLOCK + 17] = 4;
    seal(&mut shop.blocks[5 * BLOCK..6 * BLOCK]);
    nothing_changes(&shop, &block(2), refused(7, 5));
    nothing_changes(&shop, &wrong_kind, refused(3, 6));
    shop.blocks[0] = 9;
    seal(&mut shop.blocks[..BLOCK]);
    nothing_changes(&shop, &block(2), refused(3, 0));
    nothing_changes(&shop, &wrong_kind, refused(3, 0));
    nothing_changes(&shop, &wrong_check, refused(2, 6));
    shop.blocks[3 * BLOCK + 511] ^= 1;
    nothing_changes(&shop, &wrong_check, refused(2, 3));
}

/// The book as it is, with the rule that would leave, is refused before the number.
#[test]
fn refusals_of_a_departure() {
    let shop = record(&[0, 1, 2], 0b101);
    for rule in [3, 4, 31, 32, 256, 1 << 31, u32::MAX] {
        nothing_leaves(&shop, rule, refused(24, 0));
    }
    let mut damaged = shop;
    damaged.blocks[6 * BLOCK + 510] ^= 1;
    nothing_leaves(&damaged, 2, refused(2, 6));
    nothing_leaves(&damaged, 0, refused(2, 6));
    nothing_leaves(&damaged, 3, refused(2, 6));
    // The number alone decides what the book is.
    damaged.rules = 2;
    assert_eq!(depart(&mut damaged, 0), Ok(0));
    assert_is(&damaged, &[1]);
}

/// A search that is given up changes nothing; one that is not needed is not made.
#[test]
fn searches_that_are_given_up() {
    let none = |_: &second::book::Book, _: usize| None;
    let before = record(&[0, 1], 0b11);
    let mut after = before.clone();
    assert_eq!(arrive_by(&mut after, &block(2), &none), None);
    assert_eq!(depart_by(&mut after, 0, &none), None);
    assert_eq!(after, before);
    let mut clear = record(&[0, 1], 0);
    assert_eq!(depart_by(&mut clear, 0, &none), Some(Ok(0)));
    let new = |book: &second::book::Book, rule: usize| match rule {
        2 => idle::within(book, rule, 1_000),
        _ => None,
    };
    assert_eq!(arrive_by(&mut after, &block(2), &new), Some(Ok(0b111)));
}
