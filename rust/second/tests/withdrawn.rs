//! Document 02's N9 on a small book of addresses, worked out by hand: Address owns truncate, Street under
//! it withdraws it, House under Street owns it again, Lane under Street does not, and City is under Address.
//! So Address, House and City support truncate; Street, Lane and the root support nothing.

use books::addresses::{book, ADDRESS, CITY, EVERYTHING, HOUSE, LANE, STREET, TRUNCATE};
use books::draft::{seal_all, ACCESS, BLOCK, PROJECTION};
use books::shop::{rule, ANALYST, REPORT};
use books::{named, Draft};
use second::access::{Access, Action};
use second::blocked::Datum;
use second::{reading, Asked, Holds, Refusal, Tally};

const COLUMN_HOUSE: [u8; 4] = [1, 0, 0, 0];
const COLUMN_LANE: [u8; 4] = [1, 1, 0, 0];
const COLUMN_CITY: [u8; 4] = [1, 2, 0, 0];

/// Every address must be truncated.
fn truncated() -> books::draft::Rule {
    rule(ANALYST, &[(ACCESS, ADDRESS)], &[&[TRUNCATE]])
}

fn refused<T>(number: u32, place: u32) -> Result<T, Refusal> {
    Err(Refusal { number, place })
}

fn truncate(row: u8) -> [u8; 4] {
    [2, 1, row, 255]
}

fn output(row: u8) -> [u8; 4] {
    [4, row, 0, 0]
}

/// The same book as if nothing were withdrawn.
fn kind_2(draft: &Draft) -> Draft {
    Draft {
        withdrawn: None,
        ..draft.clone()
    }
}

/// The operations that each category supports.
fn supported(draft: &Draft) -> Vec<Vec<u8>> {
    let book = reading::read(&draft.bytes()).expect("it is accepted");
    let each = book.supported.into_iter();
    each.map(|of| of.into_iter().collect()).collect()
}

#[test]
fn what_each_category_supports() {
    let book = book(&[]);
    let [none, one] = [vec![], vec![1]];
    let wanted = [&none, &one, &none, &one, &none, &one];
    assert_eq!(supported(&book).iter().collect::<Vec<_>>(), wanted);
    let wanted = [&none, &one, &one, &one, &one, &one];
    assert_eq!(supported(&kind_2(&book)).iter().collect::<Vec<_>>(), wanted);
}

/// What the root withdraws, or a category whose parent lacks it, changes nothing: neither above nor below.
#[test]
fn what_takes_nothing_away() {
    let right = supported(&book(&[]));
    for category in [EVERYTHING, LANE] {
        let mut draft = book(&[]);
        let masks = draft.withdrawn.as_mut().expect("it has some");
        masks[usize::from(category)] = 0xFFFE;
        assert_eq!(supported(&draft), right);
    }
}

/// The accesses of one value that is put out.
fn accesses(draft: &Draft, rows: &[[u8; 4]]) -> Vec<Access> {
    let book = reading::read(&draft.bytes()).expect("it is accepted");
    let put_out = output(rows.len() as u8 - 1);
    let plan = [rows, &[put_out]].concat().concat();
    let rows = second::plan::read(&plan, &book).expect("it is accepted");
    let by_paths = second::path::accesses_by_paths(&book, &rows);
    assert_eq!(second::path::accesses_by_rows(&book, &rows), by_paths);
    by_paths.into_iter().collect()
}

fn projection(leaf: u8, operation: u8) -> Vec<Access> {
    vec![Access {
        action: Action::Projection,
        leaf: usize::from(leaf),
        operation,
    }]
}

#[test]
fn lineage() {
    let book = book(&[]);
    let of = |column: [u8; 4]| accesses(&book, &[column, truncate(0)]);
    assert_eq!(of(COLUMN_HOUSE), projection(HOUSE, 1));
    assert_eq!(of(COLUMN_LANE), projection(LANE, 0));
    assert_eq!(of(COLUMN_CITY), projection(CITY, 1));
    let of = |column: [u8; 4]| accesses(&kind_2(&book), &[column, truncate(0)]);
    assert_eq!(of(COLUMN_LANE), projection(LANE, 1));
}

/// The root owns operation 2, which nobody withdraws. Above a lane that was truncated in vain it counts, and
/// above a house that was truncated it does not.
#[test]
fn the_next_operation_counts() {
    let mut book = book(&[]);
    book.data[0].1 = 1 << 2;
    book.functions.push(2);
    let of = |column: [u8; 4]| accesses(&book, &[column, truncate(0), [2, 2, 1, 255]]);
    assert_eq!(of(COLUMN_HOUSE), projection(HOUSE, 1));
    assert_eq!(of(COLUMN_LANE), projection(LANE, 2));
    assert_eq!(of(COLUMN_CITY), projection(CITY, 1));
}

/// "A mask names only operations that the referred category supports": Address supports truncate, whatever
/// Street has withdrawn, and House supports it again.
#[test]
fn mask_checks() {
    for category in [ADDRESS, HOUSE, CITY] {
        let of = rule(ANALYST, &[(ACCESS, category)], &[&[TRUNCATE]]);
        assert_eq!(second::check(&book(&[of]).bytes()), Ok(1), "{category}");
    }
    for category in [EVERYTHING, STREET, LANE] {
        let of = rule(ANALYST, &[(ACCESS, category)], &[&[0], &[TRUNCATE]]);
        let draft = book(&[truncated(), of]);
        assert_eq!(second::check(&draft.bytes()), refused(9, 5), "{category}");
        let kept = second::check(&kind_2(&draft).bytes());
        assert_eq!(kept.is_ok(), category != EVERYTHING, "{category}");
    }
}

/// A lane can't be truncated, so whoever puts one out breaks the rule.
#[test]
fn verdicts() {
    let bytes = book(&[truncated()]).bytes();
    let judged = |column: [u8; 4]| {
        let plan = [column, truncate(0), output(1)].concat();
        second::judge(&bytes, 1, &plan)
    };
    assert_eq!(judged(COLUMN_HOUSE), Ok(0));
    assert_eq!(judged(COLUMN_LANE), Ok(1));
    assert_eq!(judged(COLUMN_CITY), Ok(0));
}

/// What Idle says of a rule by both searches, and the plan.
fn shown(draft: &Draft, rule: u32) -> Option<(u32, Vec<u8>)> {
    let [mut buffer, mut naive] = [[9; 36]; 2];
    let said = second::idle(&draft.bytes(), rule, &mut buffer);
    assert_eq!(second::idle_naive(&draft.bytes(), rule, &mut naive), said);
    assert_eq!(buffer, naive);
    let (user, rows) = said.expect("it is not refused")?;
    Some((user, buffer[..4 * rows as usize].to_vec()))
}

/// Rule 0 forbids streets, rule 1 asks that addresses be truncated. A house that is truncated breaks rule 0
/// alone. A lane breaks both, so without a column of houses rule 0 is idle. With nothing withdrawn a lane
/// that is truncated would be shown.
#[test]
fn shown_plans() {
    let forbidden = rule(ANALYST, &[(ACCESS, STREET)], &[]);
    let mut draft = book(&[forbidden, truncated()]);
    let house = [COLUMN_HOUSE, truncate(0), output(1)].concat();
    assert_eq!(shown(&draft, 0), Some((1, house)));
    let city = [COLUMN_CITY, output(0)].concat();
    assert_eq!(shown(&draft, 1), Some((1, city)));
    draft.columns[0] = 255;
    assert_eq!(shown(&draft, 0), None);
    let lane = [COLUMN_LANE, truncate(0), output(1)].concat();
    assert_eq!(shown(&kind_2(&draft), 0), Some((1, lane)));
}

/// What Blocked says of a rule by both searches.
fn closed(draft: &Draft, rule: u32) -> Option<(u32, Vec<Datum>)> {
    let said = second::blocked(&draft.bytes(), rule);
    assert_eq!(second::blocked_naive(&draft.bytes(), rule), said);
    said.expect("it is not refused")
}

fn causes(draft: &Draft, rule: u32) -> Option<u32> {
    let said = second::culprits(&draft.bytes(), rule);
    assert_eq!(second::culprits_naive(&draft.bytes(), rule), said);
    said.expect("it is not refused")
}

/// Rule 0 asks that addresses be truncated. Truncation opens houses and cities; it can't be had of lanes,
/// which so stay closed. Rule 1 takes streets as they are and is closed by rule 0 there; rule 2, which is
/// about houses and Report, is open.
#[test]
fn open_operations() {
    let any = rule(ANALYST, &[(PROJECTION, STREET)], &[&[0]]);
    let houses = rule(REPORT, &[(ACCESS, HOUSE)], &[&[TRUNCATE]]);
    let mut draft = book(&[truncated(), any, houses]);
    let lane = Datum {
        action: Action::Projection,
        leaf: usize::from(LANE),
    };
    assert_eq!(closed(&draft, 0), Some((1, vec![lane])));
    assert_eq!(closed(&draft, 1), Some((1, vec![lane])));
    assert_eq!(closed(&draft, 2), None);
    assert_eq!(
        [0, 1, 2].map(|r| causes(&draft, r)),
        [Some(0), Some(1), None]
    );
    let kept = kind_2(&draft);
    assert_eq!([0, 1, 2].map(|r| closed(&kept, r)), [None, None, None]);
    draft.columns[1] = 255;
    assert_eq!([0, 1, 2].map(|r| closed(&draft, r)), [None, None, None]);
}

/// A lane that is truncated is held raw: bit 4 of word 0 of user 2, and not of word 1.
#[test]
fn what_is_held() {
    let bytes = book(&[]).bytes();
    let mut ledger = [0; 1_024];
    let plan = [COLUMN_LANE, truncate(0), output(1)].concat();
    let (mut tally, mut holds) = (Tally::default(), Holds::default());
    let said = second::ask(&bytes, 2, &plan, &ledger, &mut tally, &mut holds);
    assert_eq!(said, Ok(Asked { mask: 0, number: 1 }));
    assert_eq!(holds.places[0].words[..2], [1 << LANE, 0]);
    let said = second::commit(&bytes, 2, 1, &mut ledger, &mut tally, &mut holds);
    assert_eq!(said, Ok(1));
    assert_eq!(ledger[64..66], [1 << LANE, 0]);
}

/// The book with a byte of a block changed, sealed again.
fn changed(draft: &Draft, block: usize, byte: usize, to: u8) -> Vec<u8> {
    let mut bytes = draft.bytes();
    bytes[block * BLOCK + byte] = to;
    seal_all(&mut bytes);
    bytes
}

/// Every block but block 1 has its own kind and not 6, and block 1 has 2 or 6. Read by three bytes, Street's
/// withdrawn mask is a parent and more, and the last categories are unused.
#[test]
fn kinds() {
    let draft = book(&[truncated()]);
    for block in [0, 2, 3, 4] {
        let said = second::check(&changed(&draft, block, 0, 6));
        assert_eq!(said, refused(3, block as u32));
    }
    for kind in (0..=255).filter(|kind| ![2, 6].contains(kind)) {
        assert_eq!(second::check(&changed(&draft, 1, 0, kind)), refused(3, 1));
    }
    assert_eq!(second::check(&changed(&draft, 1, 0, 2)), refused(4, 1));
    let two = kind_2(&draft);
    assert_eq!(second::check(&two.bytes()), Ok(1));
    assert_eq!(second::check(&changed(&two, 1, 0, 6)), refused(5, 1));
}

/// Category i starts at byte 2 + 5 × i of block 1, and byte 32 is the first after the six. Street is
/// category 2: its own mask is at 13 and 14, what it withdraws at 15 and 16.
#[test]
fn counts_and_unused_bytes() {
    let draft = book(&[]);
    for byte in [32, 33, 34, 36, 37, 322, 509] {
        assert_eq!(second::check(&changed(&draft, 1, byte, 1)), refused(4, 1));
    }
    for count in [0, 65, 255] {
        assert_eq!(second::check(&changed(&draft, 1, 1, count)), refused(4, 1));
    }
    // City has a parent, which is a byte too many when it is not counted; a category of zeros is one more.
    assert_eq!(second::check(&changed(&draft, 1, 1, 5)), refused(4, 1));
    assert_eq!(second::check(&changed(&draft, 1, 1, 7)), Ok(0));
}

#[test]
fn parents_and_masks() {
    let draft = book(&[]);
    let check = |byte: usize, to: u8| second::check(&changed(&draft, 1, byte, to));
    assert_eq!(check(2, 1), refused(5, 1));
    assert_eq!(check(12, 2), refused(5, 1));
    assert_eq!(check(12, 255), refused(5, 1));
    // bit 0, own and withdrawn
    assert_eq!(check(14, 1), refused(5, 1));
    assert_eq!(check(16, 1), refused(5, 1));
    assert_eq!(check(16, 3), refused(5, 1));
    // truncate in both masks of Street, and of House
    assert_eq!(check(14, 2), refused(5, 1));
    assert_eq!(check(21, 2), refused(5, 1));
    // other operations beside it
    assert_eq!(check(13, 128), Ok(0));
    assert_eq!(check(14, 252), Ok(0));
    assert_eq!(check(15, 255), Ok(0));
    // of the root
    assert_eq!(check(6, 254), Ok(0));
    assert_eq!(check(6, 1), refused(5, 1));
}

/// Each operation may stand in either mask of a category and not in both: both ends of both masks.
#[test]
fn every_operation_in_either_mask() {
    for bit in 0..16 {
        let with = |own: u16, withdrawn: u16| {
            let mut draft = book(&[]);
            draft.data[usize::from(LANE)].1 = own;
            draft.withdrawn.as_mut().expect("it has some")[usize::from(LANE)] = withdrawn;
            second::check(&draft.bytes())
        };
        let mask = 1 << bit;
        let alone = if bit == 0 { refused(5, 1) } else { Ok(0) };
        assert_eq!(with(mask, 0), alone, "{bit}");
        assert_eq!(with(0, mask), alone, "{bit}");
        assert_eq!(with(mask, 0xFFFE & !mask), alone, "{bit}");
        assert_eq!(with(mask, mask), refused(5, 1), "{bit}");
        assert_eq!(with(0xFFFE, mask), refused(5, 1), "{bit}");
    }
}

/// 3 before 4, 4 before 5 in block 1, and block by block: 5 of block 0, then 4 and 5 of block 1, then 6.
#[test]
fn refusals_in_their_order() {
    let mut bytes = book(&[truncated()]).bytes();
    let at = |block: usize, byte: usize| block * BLOCK + byte;
    for (place, number, block) in [
        (at(2, 2), 6, 2),
        (at(1, 14), 5, 1),
        (at(1, 32), 4, 1),
        (at(0, 2), 5, 0),
    ] {
        bytes[place] |= 65;
        seal_all(&mut bytes);
        assert_eq!(second::check(&bytes), refused(number, block));
    }
    bytes[at(4, 0)] = 6;
    seal_all(&mut bytes);
    assert_eq!(second::check(&bytes), refused(3, 4));
    bytes[at(3, 511)] ^= 1;
    assert_eq!(second::check(&bytes), refused(2, 3));
}

/// 64 categories take bytes 2 to 321. In the chain every category withdraws what its parent has and owns the
/// other half, even operations and odd ones in turn; in the flat book each leaf withdraws one of the root's
/// fifteen.
#[test]
fn sixty_four_categories() {
    for draft in [named::withdrawing_chain(), named::withdrawing_flat()] {
        let rules = draft.rules.len() as u32;
        let bytes = draft.bytes();
        assert_eq!(bytes[BLOCK..BLOCK + 2], [6, 64]);
        assert_eq!(second::check(&bytes), Ok(rules));
        let last = |byte: usize, to: u8| second::check(&changed(&draft, 1, byte, to));
        assert_eq!(last(321, bytes[BLOCK + 321] | 1), refused(5, 1));
        assert_eq!(last(317, 64), refused(5, 1));
        assert_eq!(last(322, 1), refused(4, 1));
        assert_eq!(last(1, 65), refused(4, 1));
    }
    let chain = supported(&named::withdrawing_chain());
    for (i, category) in chain.iter().enumerate() {
        let wanted: Vec<u8> = (1..16).filter(|k| usize::from(k % 2) == i % 2).collect();
        assert_eq!(*category, wanted);
    }
    let flat = supported(&named::withdrawing_flat());
    assert_eq!(flat[0].len(), 15);
    for (i, leaf) in flat.iter().enumerate().skip(1) {
        let wanted: Vec<u8> = (1..16).filter(|k| usize::from(*k) != 1 + i % 15).collect();
        assert_eq!(*leaf, wanted);
    }
}
