//! Empty slices, slices in the middle of other bytes, and both ends of numbers and fields.

use books::named::{opposed_shop, small_shop};
use pspec::{raw, seal, Book, Causes, Node, Plan, Refusal, Verdict, BLOCK};

fn refusal(answer: u64) -> Refusal {
    raw::value(answer).expect_err("it is refused")
}

#[test]
fn empty_slices() {
    let book = small_shop().bytes();
    assert_eq!(refusal(raw::check(&[])), Refusal::BookLength);
    assert_eq!(refusal(raw::seal(&mut [])), Refusal::BlockLength);
    assert_eq!(refusal(raw::flows(&[], &[], &mut [])), Refusal::BookLength);
    assert_eq!(refusal(raw::flows(&book, &[], &mut [])), Refusal::WordCount);
    assert_eq!(refusal(raw::judge(&[], 0, &[])), Refusal::BookLength);
    assert_eq!(raw::judge(&book, 1, &[]), 0);
    assert_eq!(refusal(raw::idle(&[], 0, &mut [])), Refusal::BookLength);
    assert_eq!(refusal(raw::idle(&book, 0, &mut [])), Refusal::BufferLength);
    assert_eq!(refusal(raw::blocked(&[], 0)), Refusal::BookLength);
    assert_eq!(refusal(raw::culprits(&[], 0)), Refusal::BookLength);
    let blocks = &mut [0; raw::BLOCKS];
    let arrived = raw::arrive(blocks, &mut 0, &mut 0, &[]);
    assert_eq!(refusal(arrived), Refusal::BookLength);
    let tree = |book: &[u8], plan: &[u8]| refusal(raw::tree(book, plan, 0, &mut []));
    assert_eq!(tree(&[], &[]), Refusal::BookLength);
    assert_eq!(tree(&book, &[]), Refusal::NoValueRow);
    assert_eq!(tree(&book, &[1, 0, 0, 0]), Refusal::TreeSize);
}

#[test]
fn nothing_outside_a_buffer_is_written() {
    let book = small_shop().bytes();
    let plan = [1, 2, 0, 0, 4, 0, 0, 0];

    let mut words = [7; 40];
    assert_eq!(raw::flows(&book, &plan, &mut words[3..35]), 0);
    assert_eq!((&words[..3], &words[35..]), (&[7; 3][..], &[7; 5][..]));
    assert_eq!(words[3], 1 << 4);

    let mut buffer = [7; 50];
    let value = raw::value(raw::idle(&book, 1, &mut buffer[5..41]));
    assert_eq!(value.map(raw::shown), Ok(Some((1, 2))));
    assert_eq!(buffer[5..13], plan);
    assert_eq!((&buffer[..5], &buffer[13..]), (&[7; 5][..], &[7; 37][..]));

    let mut buffer = [7; 30];
    let average = [1, 2, 0, 0, 2, 1, 0, 255];
    let answer = raw::tree(&book, &average, 1, &mut buffer[4..23]);
    assert_eq!(raw::value(answer).map(raw::drawn), Ok((2, 19)));
    assert_eq!(&buffer[4..23], b"1 apply\n  0 column\n");
    assert_eq!((&buffer[..4], &buffer[23..]), (&[7; 4][..], &[7; 7][..]));

    let mut bytes = [7; 3 + raw::BLOCKS + 5];
    bytes[3..3 + book.len()].copy_from_slice(&book);
    let blocks = (&mut bytes[3..3 + raw::BLOCKS]).try_into();
    let blocks: &mut [u8; raw::BLOCKS] = blocks.expect("they are as many");
    let (mut rules, mut marks) = (3, 0b101);
    let block = [&[7; 2], &book[BLOCK * 5..BLOCK * 6], &[7]].concat();
    let block = &block[2..2 + BLOCK];
    assert_eq!(raw::arrive(blocks, &mut rules, &mut marks, block), 0b1111);
    assert_eq!(raw::depart(blocks, &mut rules, &mut marks, 3), 0b101);
    assert_eq!((rules, marks, &blocks[..book.len()]), (3, 0b101, &book[..]));
    assert!(blocks[book.len()..].iter().all(|&byte| byte == 0));
    let behind = 3 + raw::BLOCKS;
    assert_eq!((&bytes[..3], &bytes[behind..]), (&[7; 3][..], &[7; 5][..]));

    let mut bytes = [0; 520];
    bytes[3] = 4;
    assert_eq!(seal(&mut bytes[3..515]), Ok(()));
    assert_eq!(bytes[513..], [0, 4, 0, 0, 0, 0, 0]);
}

#[test]
fn a_book_may_start_at_any_address() {
    let book = small_shop().bytes();
    for shift in 0..9 {
        let moved = [vec![0xEE; shift], book.clone()].concat();
        assert_eq!(raw::check(&moved[shift..]), 3);
    }
}

/// The value as the header packs it, and the same as types.
#[test]
fn closed_data() {
    let book = opposed_shop().bytes();
    let [state, price] = [128 + 2, 128 + 4];
    let both = (1 << 24) + price * 256 + state;
    for (rule, value) in [both, (1 << 24) + price].into_iter().enumerate() {
        assert_eq!(raw::blocked(&book, rule as u32), value);
    }
    let forbids = |rule: usize| {
        let mut shop = opposed_shop();
        shop.rules[rule].restrictions.clear();
        Book::new(shop.bytes()).expect("it is sound")
    };
    for rule in 0..4 {
        let answer = forbids(rule).blocked(rule as u32);
        assert_eq!(answer, Err(Refusal::RuleForbids));
    }
    let closed = forbids(0).blocked(3).expect("it has a restriction");
    assert!(!closed.is_open());
    assert_eq!(forbids(3).blocked(u32::MAX), Err(Refusal::NoRule));
}

/// The value as the header packs it, the asking rule among the others, and the same as types.
#[test]
fn rules_behind_a_block() {
    let bytes = opposed_shop().bytes();
    let book = Book::new(bytes.clone()).expect("it is sound");
    for (rule, others) in (0..).zip([0b1010, 0b1000, 0b1000, 0b0010]) {
        assert_eq!(raw::culprits(&bytes, rule), u64::from(others + (1 << rule)));
        let Ok(Causes::Few(rules)) = book.culprits(rule) else {
            panic!("rule {rule} is blocked");
        };
        assert_eq!(rules.mask(), others);
    }
    for rule in [4, 31, 32, 259, u32::MAX] {
        assert_eq!(refusal(raw::culprits(&bytes, rule)), Refusal::NoRule);
        assert_eq!(book.culprits(rule), Err(Refusal::NoRule));
    }
    let mut shop = opposed_shop();
    shop.rules[3].restrictions.clear();
    let book = Book::new(shop.bytes()).expect("it is sound");
    assert_eq!(book.culprits(3), Err(Refusal::RuleForbids));
}

/// A rule that closes its data by itself has no others behind it, and that is not the answer for an
/// unblocked one.
#[test]
fn no_others_behind_a_block() {
    let mut shop = small_shop();
    let book = Book::new(shop.bytes()).expect("it is sound");
    assert_eq!(book.culprits(1), Ok(Causes::Unblocked));
    shop.functions = vec![0, 2];
    let book = Book::new(shop.bytes()).expect("it is sound");
    let Ok(Causes::Few(others)) = book.culprits(1) else {
        panic!("no function has what it asks for");
    };
    assert!(others.is_empty());
}

/// The value as the header packs it, at both ends of the buffer's length and of the row's number.
#[test]
fn trees_and_their_room() {
    let bytes = small_shop().bytes();
    let book = Book::new(bytes.clone()).expect("it is sound");
    let plan = [1, 2, 0, 0, 3, 0, 0, 0, 4, 1, 0, 0];
    let text = b"1 choose\n  0 column\n  0 column\n  0 column\n";
    for (length, answer) in [(41, 30 << 40), (42, (3 << 20) + 42), (43, (3 << 20) + 42)] {
        let mut buffer = vec![7; length];
        assert_eq!(raw::tree(&bytes, &plan, 1, &mut buffer), answer);
        let mut wanted = vec![7; length];
        if length >= text.len() {
            wanted[..text.len()].copy_from_slice(text);
        }
        assert_eq!(buffer, wanted);
    }
    let plan = Plan::new(plan);
    for row in [2, 3, 63, 64, 255, 256, 257, 1 << 16, u32::MAX] {
        assert_eq!(book.tree(&plan, row), Err(Refusal::NoValueRow));
    }
    assert_eq!(
        book.tree(&Plan::new([1, 2, 0]), 0),
        Err(Refusal::PlanLength)
    );
}

/// Chains of Choose and of Apply rows up to the last row, at both ends of what is written.
#[test]
fn large_trees() {
    let book = Book::new(small_shop().bytes()).expect("it is sound");
    let chain = |first: [u8; 4], next: fn(u8) -> [u8; 4]| {
        let rows = std::iter::once(first).chain((0..63).map(next));
        Plan::new(rows.flatten().collect::<Vec<u8>>())
    };
    let chosen = chain([1, 2, 0, 0], |i| [3, i, i, i]);
    let nodes = |plan: &Plan, row| book.tree(plan, row).map(|tree| tree.node_count());
    assert_eq!(nodes(&chosen, 7), Ok(3_280));
    for row in 8..64 {
        assert_eq!(nodes(&chosen, row), Err(Refusal::TreeSize));
    }
    // Apply of two rows eleven times, then of one row.
    let applied = chain([1, 2, 0, 0], |i| [2, 0, i, if i < 11 { i } else { 255 }]);
    assert_eq!(nodes(&applied, 11), Ok(4_095));
    assert_eq!(nodes(&applied, 12), Ok(4_096));
    assert_eq!(nodes(&applied, 13), Err(Refusal::TreeSize));
    let deep = chain([1, 2, 0, 0], |i| [2, 0, i, 255]);
    let tree = book.tree(&deep, 63).expect("it has 64 nodes");
    assert_eq!(tree.node_count(), 64);
    assert!(tree.nodes().eq((0..64).map(|level| Node {
        level,
        row: 63 - level
    })));
    let last = format!("{}0 column\n", " ".repeat(126));
    assert!(tree.text().ends_with(&last));
}

#[test]
fn refused_users_and_plans_open_nothing() {
    let book = Book::new(small_shop().bytes()).expect("it is sound");
    let short = Plan::new([1, 2, 0]);
    let itself = Plan::new([4, 0, 0, 0]);
    for (user, plan, refusal) in [
        (0, &Plan::default(), Refusal::NoUser),
        (1, &short, Refusal::PlanLength),
        (1, &itself, Refusal::FaultyRow { row: 0 }),
    ] {
        let verdict = book.judge(user, plan);
        assert_eq!(verdict, Verdict::Refused(refusal));
        assert!(!verdict.opens());
    }
    assert_eq!(book.flows(&short), Err(Refusal::PlanLength));
    assert_eq!(short.to_string(), "010200");
    assert_eq!(short.rows().count(), 0);
}

/// The small shop with another block, sealed: these bytes, then zeros.
fn shop_with(block: usize, fields: &[u8]) -> Result<Book, Refusal> {
    let mut bytes = small_shop().bytes();
    let place = &mut bytes[BLOCK * block..BLOCK * (block + 1)];
    place.fill(0);
    place[..fields.len()].copy_from_slice(fields);
    seal(place).expect("it is a block");
    Book::new(bytes)
}

/// The bytes of a block of kind 6: the parent, the own mask and the withdrawn mask of each category.
fn kind_6(categories: &[(u8, u16, u16)]) -> Vec<u8> {
    let mut block = vec![6, categories.len() as u8];
    for &(parent, own, withdrawn) in categories {
        block.push(parent);
        block.extend([own, withdrawn].into_iter().flat_map(u16::to_be_bytes));
    }
    block
}

/// The data of the small shop, of kind 6: All withdraws this, Price owns and withdraws that.
fn shop_6(all: u16, own: u16, price: u16) -> Vec<u8> {
    let of = [
        (0, 0, all),
        (0, 0, 0),
        (1, 0, 0),
        (1, 0, 0),
        (0, own, price),
    ];
    kind_6(&of)
}

/// A block of kind 6 in the place of kind 2, at both ends of its masks.
#[test]
fn withdrawn_operations() {
    for (all, own, price) in [(0, 6, 0), (0xFFFE, 6, 0xFFF8), (6, 6, 8), (0, 0xFFFE, 0)] {
        let book = shop_with(1, &shop_6(all, own, price)).expect("it is sound");
        assert_eq!(book.rule_count(), 3);
    }
    let refused = Err(Refusal::ParentOrOwn { block: 1 });
    for (all, own, price) in [
        (0, 6, 2),
        (0, 6, 4),
        (0, 0x8006, 0x8000),
        (0, 6, 0xFFFE),
        (1, 6, 0),
        (0, 6, 1),
        (0, 7, 0),
        (0, 7, 1),
    ] {
        assert_eq!(
            shop_with(1, &shop_6(all, own, price)),
            refused,
            "{all:x} {own:x} {price:x}"
        );
    }
    let mut above = shop_6(0, 6, 0);
    above[2 + 5 * 3] = 3;
    assert_eq!(shop_with(1, &above), refused);
    let unsupported = Err(Refusal::MaskOperation { block: 4 });
    assert_eq!(shop_with(1, &shop_6(0, 2, 4)), unsupported);
}

/// Kind 6 in any other block, any other kind in block 1, and five bytes a category under kind 2.
#[test]
fn where_kind_6_may_stand() {
    for block in [0, 2, 3, 4, 6] {
        let fields = shop_6(0, 6, 0);
        let wrong = Err(Refusal::BlockKind {
            block: block as u32,
        });
        assert_eq!(shop_with(block, &fields), wrong);
    }
    for kind in [0, 1, 3, 4, 5, 7, 255] {
        let mut fields = shop_6(0, 6, 0);
        fields[0] = kind;
        assert_eq!(shop_with(1, &fields), Err(Refusal::BlockKind { block: 1 }));
    }
    let mut fields = shop_6(0, 6, 0);
    fields[0] = 2;
    assert_eq!(
        shop_with(1, &fields),
        Err(Refusal::CountOrZero { block: 1 })
    );
}

/// 64 categories take bytes 2 to 321, and every byte behind them is zero.
#[test]
fn as_many_categories_as_there_may_be() {
    let mut of = vec![(0, 0, 0), (0, 0, 0), (1, 0, 0), (1, 0, 0), (0, 6, 8)];
    of.resize(63, (0, 0, 0));
    of.push((4, 0x8000, 4));
    let full = kind_6(&of);
    assert_eq!(full.len(), 322);
    let book = |fields: &[u8]| shop_with(1, fields).map(|book| book.rule_count());
    // The column of leaf 4 has a label with another below it now.
    assert_eq!(book(&full), Err(Refusal::LabelOrFunction { block: 2 }));
    let mut beside = full.clone();
    beside[2 + 5 * 63] = 1;
    assert_eq!(book(&beside), Ok(3));
    for place in [322, 323, 509] {
        let mut past = beside.clone();
        past.resize(place, 0);
        past.push(1);
        assert_eq!(
            book(&past),
            Err(Refusal::CountOrZero { block: 1 }),
            "{place}"
        );
    }
    of.push((0, 0, 0));
    assert_eq!(book(&kind_6(&of)), Err(Refusal::CountOrZero { block: 1 }));
}

/// What is withdrawn is had raw, below the category that withdraws it too, and not where it is owned again.
#[test]
fn what_is_withdrawn_does_not_count() {
    // All owns sum, Address withdraws it, City owns it again.
    let of = [(0, 4, 0), (0, 0, 4), (1, 0, 0), (1, 4, 0), (0, 2, 0)];
    let book = shop_with(1, &kind_6(&of)).expect("it is sound");
    for (column, leaf, operation) in [(0, 2, 0), (1, 3, 2), (2, 4, 2)] {
        let plan = Plan::new([1, column, 0, 0, 2, 2, 0, 255, 4, 1, 0, 0]);
        let accesses = book.flows(&plan).expect("it is a plan");
        let found: Vec<_> = accesses.iter().map(|a| (a.leaf, a.operation)).collect();
        assert_eq!(found, [(leaf, operation)]);
    }
}

/// With nothing withdrawn every rule has the answers that it has in kind 2.
#[test]
fn kind_6_with_nothing_withdrawn() {
    let two = Book::new(small_shop().bytes()).expect("it is sound");
    let six = shop_with(1, &shop_6(0, 6, 0)).expect("it is sound");
    assert_ne!(two, six);
    for rule in 0..4 {
        assert_eq!(two.idle(rule), six.idle(rule));
        assert_eq!(two.blocked(rule), six.blocked(rule));
        assert_eq!(two.culprits(rule), six.culprits(rule));
    }
    let sum = Plan::new([1, 2, 0, 0, 2, 2, 0, 255, 4, 1, 0, 0]);
    assert_eq!(two.flows(&sum), six.flows(&sum));
    assert_eq!(two.judge(1, &sum), six.judge(1, &sum));
}

/// Every access that `iter` gives is contained, and no other.
#[test]
fn accesses_one_by_one() {
    let book = Book::new(small_shop().bytes()).expect("it is sound");
    // Column 2 decides between column 0 and column 1, and the result is put out.
    let plan = Plan::new([1, 0, 0, 0, 1, 1, 0, 0, 1, 2, 0, 0, 3, 2, 0, 1, 4, 3, 0, 0]);
    let accesses = book.flows(&plan).expect("it is a plan");
    let each: Vec<_> = accesses.iter().map(|a| (a.leaf, a.operation)).collect();
    assert_eq!(each, [(2, 0), (3, 0), (4, 0)]);
    assert!(accesses.iter().all(|access| accesses.contains(access)));
    let bits: u32 = accesses.words().iter().map(|word| word.count_ones()).sum();
    assert_eq!(bits, 3);
}
