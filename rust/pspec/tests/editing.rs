//! Arrivals and departures: the marks after lists of edits, each refusal in its order, wrong masks, and
//! both ends of the number of rules.

use books::draft::{seal, Draft};
use books::named::small_shop;
use books::valid::{self, Size};
use books::Random;
use pspec::{Book, Editing, Refusal, WrongLength, BLOCK};

/// A record with these bytes at its front and then only this byte, this number of rules and this mask.
fn record(book: &[u8], behind: u8, rules: u32, marks: u32) -> Editing {
    let mut bytes = book.to_vec();
    bytes.resize(36 * BLOCK, behind);
    bytes.extend(rules.to_le_bytes());
    bytes.extend(marks.to_le_bytes());
    Editing::from_bytes(&bytes).expect("it is 18,440 bytes")
}

fn book(draft: &Draft) -> Book {
    Book::new(draft.bytes()).expect("it is sound")
}

/// The mask that Idle gives afresh for each rule.
fn afresh(book: &Book) -> u32 {
    let idle = |&rule: &u32| book.idle(rule).expect("there is such a rule").is_idle();
    let rules = (0..book.rule_count()).filter(idle);
    rules.fold(0, |mask, rule| mask | 1 << rule)
}

/// The bytes behind the book, the number and the mask are those of the record that holds this draft.
fn is_record_of(editing: &Editing, draft: &Draft, marks: u32) {
    let rules = draft.rules.len() as u32;
    assert_eq!(*editing, record(&draft.bytes(), 0, rules, marks));
    assert_eq!(editing.book().expect("it is sound"), book(draft));
    assert_eq!(
        (editing.rule_count(), editing.marks().mask()),
        (rules, marks)
    );
}

/// Says that an edit is refused and changes nothing.
fn refuses(
    editing: &Editing,
    edit: impl Fn(&mut Editing) -> Result<pspec::Rules, Refusal>,
    refusal: Refusal,
) {
    let mut edited = editing.clone();
    assert_eq!(edit(&mut edited), Err(refusal));
    assert_eq!(edited, *editing);
}

/// A random edit of a draft and its record by rules of another: whether a rule arrives, the reply, and the
/// marks that there were of the rules that are there still.
fn random_edit(
    random: &mut Random,
    whole: &Draft,
    draft: &mut Draft,
    editing: &mut Editing,
) -> (bool, u32, u32) {
    let before = editing.marks().mask();
    let arrives = draft.rules.is_empty() || random.chance(2, 3);
    let (reply, kept) = match arrives {
        true => {
            let rule = whole.rules[random.below(whole.rules.len())].clone();
            let reply = editing.arrive(&rule.block());
            draft.rules.push(rule);
            (reply, before)
        }
        false => {
            let out = random.below(draft.rules.len());
            draft.rules.remove(out);
            let low = (1 << out) - 1;
            let reply = editing.depart(out as u32);
            (reply, before & low | before >> 1 & !low)
        }
    };
    (arrives, reply.expect("it is sound").mask(), kept)
}

#[test]
fn marks_are_those_of_idle_afresh() {
    let (mut idle, mut turned) = (0, [0; 2]);
    for seed in 0..60 {
        let mut random = Random::new(seed);
        let whole = valid::draft(&mut random, [Size::Tiny, Size::Small][seed as usize % 2]);
        let mut draft = whole.with_rules(&[]);
        let mut editing = Editing::new(&book(&draft));
        let edits = if whole.rules.is_empty() { 0 } else { 12 };
        for _ in 0..edits {
            let (arrives, reply, kept) = random_edit(&mut random, &whole, &mut draft, &mut editing);
            let marks = afresh(&book(&draft));
            assert_eq!(reply, marks);
            is_record_of(&editing, &draft, marks);
            // No arrival makes an idle rule needed, and no departure a needed one idle.
            let wrong = if arrives {
                kept & !marks
            } else {
                marks & !kept
            };
            assert_eq!(wrong, 0);
            idle += marks.count_ones();
            turned[usize::from(arrives)] += (kept ^ marks).count_ones();
        }
    }
    assert!(
        idle > 100 && turned[0] > 20 && turned[1] > 20,
        "{idle} {turned:?}"
    );
}

#[test]
fn a_books_own_rules_and_marks() {
    let shop = small_shop();
    is_record_of(&Editing::new(&book(&shop)), &shop, 0b101);
    let bare = shop.with_rules(&[]);
    is_record_of(&Editing::new(&book(&bare)), &bare, 0);
    // Each of two equal rules is idle beside the other.
    let twins = shop.with_rules(&[1, 1]);
    let mut editing = Editing::new(&book(&twins));
    is_record_of(&editing, &twins, 0b11);
    assert!(editing.depart(0).expect("it is sound").is_empty());
    is_record_of(&editing, &shop.with_rules(&[1]), 0);
}

/// At 31 rules one more is taken, at 32 none; and all can go again.
#[test]
fn both_ends_of_the_number_of_rules() {
    let shop = small_shop();
    let many = |n: usize| shop.with_rules(&vec![1; n]);
    let mut editing = Editing::new(&book(&many(31)));
    let block = shop.rules[1].block();
    assert_eq!(
        editing.arrive(&block).map(|marks| marks.mask()),
        Ok(u32::MAX)
    );
    is_record_of(&editing, &many(32), u32::MAX);
    refuses(&editing, |it| it.arrive(&block), Refusal::RulesFull);
    for left in (0..32).rev() {
        let marks = match left {
            0 | 1 => 0,
            _ => (1 << left) - 1,
        };
        let reply = editing.depart(left as u32 / 2);
        assert_eq!(reply.map(|marks| marks.mask()), Ok(marks));
        is_record_of(&editing, &many(left), marks);
    }
    refuses(&editing, |it| it.depart(0), Refusal::NoRule);
}

/// 33 comes first, then the length of the block, then the refusals of the book with it.
#[test]
fn refusals_of_an_arrival_in_their_order() {
    let shop = small_shop().bytes();
    let block = small_shop().rules[1].block();
    for rules in [32, 33, u32::MAX] {
        for wrong in [&block[..], &block[1..], &[]] {
            let full = record(&[], 7, rules, 5);
            refuses(&full, |it| it.arrive(wrong), Refusal::RulesFull);
        }
    }
    let long = [&block[..], &[0]].concat();
    for wrong in [&[], &block[1..], &long[..]] {
        let other = record(&[], 7, 31, 5);
        refuses(&other, |it| it.arrive(wrong), Refusal::BookLength);
    }
    // The book's own blocks count before the new one, and a check before a kind.
    let mut kind = block.clone();
    kind[0] = 4;
    let at = |rules, block: &[u8], refusal| {
        let shop = record(&shop, 7, rules, 5);
        refuses(&shop, |it| it.arrive(block), refusal);
    };
    at(3, &kind, Refusal::BlockCheck { block: 7 });
    seal(&mut kind);
    at(3, &kind, Refusal::BlockKind { block: 7 });
    at(4, &kind, Refusal::BlockCheck { block: 7 });
    let mut user = block.clone();
    user[2] = 3;
    seal(&mut user);
    at(3, &user, Refusal::RuleNumber { block: 7 });
    at(0, &user, Refusal::RuleNumber { block: 4 });
    let mut head = shop.clone();
    head[512 * 2 + 2] = 1;
    seal(&mut head[512 * 2..512 * 3]);
    let head = record(&head, 0, 3, 5);
    let refusal = Refusal::LabelOrFunction { block: 2 };
    refuses(&head, |it| it.arrive(&user), refusal);
}

/// 1 comes before anything is read, then the refusals of the book as it is, then 24.
#[test]
fn refusals_of_a_departure_in_their_order() {
    let shop = small_shop().bytes();
    for rules in [33, u32::MAX] {
        let long = record(&shop, 0, rules, 5);
        refuses(&long, |it| it.depart(0), Refusal::BookLength);
        assert_eq!(long.book(), Err(Refusal::BookLength));
    }
    // The block behind the last rule is all zero: its check is right, and its kind is not.
    let cut = record(&shop, 0, 4, 5);
    refuses(&cut, |it| it.depart(4), Refusal::BlockKind { block: 7 });
    assert_eq!(cut.book(), Err(Refusal::BlockKind { block: 7 }));
    let mut changed = shop.clone();
    changed[512 * 6 + 8] = 0;
    let changed = record(&changed, 0, 3, 5);
    for rule in [0, 3] {
        let refusal = Refusal::BlockCheck { block: 6 };
        refuses(&changed, |it| it.depart(rule), refusal);
    }
    for rule in [3, 32, u32::MAX] {
        let shop = record(&shop, 7, 3, 5);
        refuses(&shop, |it| it.depart(rule), Refusal::NoRule);
    }
}

/// What an edit keeps of a mask that was handed in wrong: an arrival the set marks, a departure the clear
/// ones. Bits past the last rule count for nothing, and neither do bytes behind the book.
#[test]
fn a_mask_that_is_wrong() {
    let shop = small_shop();
    let (two, three) = (shop.with_rules(&[0, 1]), shop.with_rules(&[0, 1, 2]));
    let third = shop.rules[2].block();
    for marks in 0..8 {
        let mut editing = record(&two.bytes(), 7, 2, marks | !7);
        assert_eq!(editing.marks().mask(), marks & 0b11);
        let kept = marks & 0b11 | 0b101;
        let reply = editing.arrive(&third);
        assert_eq!(reply.map(|marks| marks.mask()), Ok(kept));
        is_record_of(&editing, &three, kept);
    }
    // Without rule 2 rule 0 is idle still and rule 1 needed.
    for marks in 0..8 {
        let mut editing = record(&three.bytes(), 7, 3, marks | !7);
        assert_eq!(editing.marks().mask(), marks);
        let kept = marks & 0b01;
        assert_eq!(editing.depart(2).map(|marks| marks.mask()), Ok(kept));
        is_record_of(&editing, &two, kept);
    }
}

#[test]
fn stored_and_back() {
    let shop = small_shop();
    let editing = Editing::new(&book(&shop));
    let stored = editing.to_bytes();
    assert_eq!(stored.len(), Editing::BYTES);
    assert_eq!(stored[..7 * BLOCK], shop.bytes());
    assert!(stored[7 * BLOCK..36 * BLOCK].iter().all(|&byte| byte == 0));
    assert_eq!(stored[36 * BLOCK..], [3, 0, 0, 0, 5, 0, 0, 0]);
    assert_eq!(Editing::from_bytes(&stored), Ok(editing));
    let numbers = record(&[], 9, 0x0102_0304, 0x0506_0708).to_bytes();
    assert_eq!(numbers[36 * BLOCK..], [4, 3, 2, 1, 8, 7, 6, 5]);
    for found in [0, 18_439, 18_441] {
        let wrong = WrongLength {
            found,
            expected: 18_440,
        };
        assert_eq!(Editing::from_bytes(&vec![0; found]), Err(wrong));
    }
    let said = format!("{:?}", Editing::new(&book(&shop)));
    assert_eq!(said, "Editing { rules: 3, idle: rules 0 and 2 }");
}
