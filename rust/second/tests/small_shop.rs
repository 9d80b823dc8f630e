//! Document 01's small shop: every line of its list, starred and not, one of them as document 02's N5
//! has it, and the three report lines.

use books::named::{opposed_shop, small_shop};
use second::Refusal;

const STATE: [u8; 4] = [1, 0, 0, 0];
const CITY: [u8; 4] = [1, 1, 0, 0];
const PRICE: [u8; 4] = [1, 2, 0, 0];
const CONCAT: u8 = 0;
const AVG: u8 = 1;
const SUM: u8 = 2;

fn apply(function: u8, row: u8) -> [u8; 4] {
    [2, function, row, 255]
}

fn output(row: u8) -> [u8; 4] {
    [4, row, 0, 0]
}

fn condition(row: u8) -> [u8; 4] {
    [5, row, 0, 0]
}

fn judge(user: u32, rows: &[[u8; 4]]) -> Result<u32, Refusal> {
    second::judge(&small_shop().bytes(), user, &rows.concat())
}

fn refused<T>(number: u32, place: u32) -> Result<T, Refusal> {
    Err(Refusal { number, place })
}

#[test]
fn empty_plan() {
    assert_eq!(judge(1, &[]), Ok(0));
}

#[test]
fn state_city_and_average_price() {
    let rows = [
        STATE,
        output(0),
        CITY,
        output(2),
        PRICE,
        apply(AVG, 4),
        output(5),
    ];
    assert_eq!(judge(1, &rows), Ok(0));
}

#[test]
fn state_and_sum_of_price() {
    let rows = [STATE, output(0), PRICE, apply(SUM, 2), output(3)];
    assert_eq!(judge(1, &rows), Ok(6));
    assert_eq!(judge(2, &rows), Ok(2));
}

#[test]
fn state_and_raw_price() {
    let rows = [STATE, output(0), PRICE, output(2)];
    assert_eq!(judge(2, &rows), Ok(3));
}

#[test]
fn price_as_condition() {
    let rows = [STATE, output(0), PRICE, condition(2)];
    assert_eq!(judge(1, &rows), Ok(2));
}

#[test]
fn the_first_operation_counts() {
    let nested = |inner, outer| [PRICE, apply(inner, 0), apply(outer, 1), output(2)];
    assert_eq!(judge(2, &nested(AVG, SUM)), Ok(0));
    assert_eq!(judge(2, &nested(SUM, AVG)), Ok(2));
}

/// Document 02, N5: "avg(concat(State, Price)) output by user 1 becomes 7 instead of 0".
#[test]
fn average_of_concat() {
    let rows = [STATE, PRICE, [2, CONCAT, 0, 1], apply(AVG, 2), output(3)];
    assert_eq!(judge(1, &rows), Ok(7));
}

#[test]
fn one_access_does_not_excuse_another() {
    let rows = [PRICE, output(0), apply(AVG, 0), output(2)];
    assert_eq!(judge(2, &rows), Ok(2));
}

#[test]
fn what_decides_a_choose_is_a_condition() {
    let rows = [PRICE, STATE, [3, 0, 1, 1]];
    assert_eq!(judge(2, &rows), Ok(2));
}

#[test]
fn checks_of_blocks() {
    let mut block = [0; 512];
    block[0] = 4;
    assert_eq!(second::seal(&mut block), Ok(()));
    assert_eq!(block[510..], [0, 4]);
    let mut block = [0; 512];
    block[509] = 255;
    assert_eq!(second::seal(&mut block), Ok(()));
    assert_eq!(block[510..], 64_529u16.to_be_bytes());
}

#[test]
fn unstarred_lines() {
    assert_eq!(judge(0, &[]), refused(20, 0));
    assert_eq!(judge(1, &[STATE; 64]), Ok(0));
    assert_eq!(judge(1, &[STATE; 65]), refused(21, 0));
    assert_eq!(judge(1, &[STATE, apply(AVG, 1)]), refused(22, 1));
    assert_eq!(judge(1, &[output(0)]), refused(22, 0));
}

#[test]
fn flows_of_the_choose() {
    let book = small_shop().bytes();
    let plan = [PRICE, STATE, [3, 0, 1, 1], output(2)].concat();
    let mut words = [7; 32];
    assert_eq!(second::flows(&book, &plan, &mut words), Ok(()));
    let mut wanted = [0; 32];
    wanted[0] = 1 << 2;
    wanted[16] = 1 << 4;
    assert_eq!(words, wanted);
}

/// One line a rule, as the program policyreport prints them.
fn report_line(book: &[u8], rule: u32) -> String {
    let mut buffer = [9; 36];
    match second::idle(book, rule, &mut buffer).unwrap() {
        None => format!("rule {rule} idle"),
        Some((user, rows)) => {
            let hex = |row: &[u8]| format!(" {:08x}", u32::from_be_bytes(row.try_into().unwrap()));
            let rows: String = buffer.chunks(4).take(rows as usize).map(hex).collect();
            format!("rule {rule} user {user} plan{rows}")
        }
    }
}

#[test]
fn the_report() {
    let book = small_shop().bytes();
    assert_eq!(second::check(&book), Ok(3));
    assert_eq!(report_line(&book, 0), "rule 0 idle");
    assert_eq!(
        report_line(&book, 1),
        "rule 1 user 1 plan 01020000 04000000"
    );
    assert_eq!(report_line(&book, 2), "rule 2 idle");
}

/// Every rule of the small shop is open: the average opens whatever holds a price.
#[test]
fn no_rule_is_blocked() {
    let book = small_shop().bytes();
    for rule in 0..3 {
        assert_eq!(second::blocked(&book, rule), Ok(None));
        assert_eq!(second::blocked_naive(&book, rule), Ok(None));
    }
    assert_eq!(second::blocked(&book, 3), refused(24, 0));
}

/// "26 if the rule forbids", after 24 and after the book's refusals.
#[test]
fn what_blocked_refuses() {
    let mut shop = small_shop();
    shop.rules[1].restrictions.clear();
    let mut book = shop.bytes();
    assert_eq!(second::blocked(&book, 1), refused(26, 0));
    assert_eq!(second::blocked(&book, 3), refused(24, 0));
    assert_eq!(second::blocked(&book, u32::MAX), refused(24, 0));
    book[2 * 512] = 9;
    assert_eq!(second::blocked(&book, 1), refused(2, 2));
}

/// "An unblocked rule gets that reply and no mask."
#[test]
fn no_rule_has_a_mask() {
    let book = small_shop().bytes();
    for rule in 0..3 {
        assert_eq!(second::culprits(&book, rule), Ok(None));
        assert_eq!(second::culprits_naive(&book, rule), Ok(None));
    }
}

/// With a rule 3 by which Report may have a price as a sum alone: bit 1 and bit 3 beside rule 0, bit 3
/// beside rules 1 and 2, bit 1 beside rule 3.
#[test]
fn masks_of_other_rules() {
    let book = opposed_shop().bytes();
    for (rule, mask) in [10, 8, 8, 2].into_iter().enumerate() {
        let rule = rule as u32;
        assert_eq!(second::culprits(&book, rule), Ok(Some(mask)));
        assert_eq!(second::culprits_naive(&book, rule), Ok(Some(mask)));
    }
}

/// "The refusals are N1's."
#[test]
fn what_culprits_refuses() {
    let mut shop = opposed_shop();
    shop.rules[1].restrictions.clear();
    let mut book = shop.bytes();
    for refuses in [second::culprits, second::culprits_naive] {
        assert_eq!(refuses(&book, 1), refused(26, 0));
        assert_eq!(refuses(&book, 4), refused(24, 0));
        assert_eq!(refuses(&book, u32::MAX), refused(24, 0));
    }
    book[2 * 512] = 9;
    assert_eq!(second::culprits(&book, 1), refused(2, 2));
}

/// "Deleting two equal rules: each is idle beside the other, not both together."
#[test]
fn equal_rules() {
    let mut shop = small_shop();
    shop.rules = vec![shop.rules[1].clone(), shop.rules[1].clone()];
    let idle = |draft: &books::Draft, rule| second::idle(&draft.bytes(), rule, &mut [0; 36]);
    assert_eq!(idle(&shop, 0), Ok(None));
    assert_eq!(idle(&shop, 1), Ok(None));
    shop.rules.pop();
    assert_eq!(idle(&shop, 0), Ok(Some((1, 2))));
}

#[test]
fn refusals_leave_buffers_unchanged() {
    let book = small_shop().bytes();
    let mut words = [5; 31];
    assert_eq!(second::flows(&book, &[], &mut words), refused(23, 0));
    assert_eq!(second::flows(&book, &[1], &mut words), refused(21, 0));
    assert_eq!(words, [5; 31]);
    let mut buffer = [5; 35];
    assert_eq!(second::idle(&book, 3, &mut buffer), refused(24, 0));
    assert_eq!(second::idle(&book, 1, &mut buffer), refused(25, 0));
    assert_eq!(buffer, [5; 35]);
    let mut block = [5; 511];
    assert_eq!(second::seal(&mut block), refused(10, 0));
    assert_eq!(block, [5; 511]);
}

#[test]
fn idle_leaves_the_rest_of_the_buffer() {
    let book = small_shop().bytes();
    let mut buffer = [8; 40];
    assert_eq!(second::idle(&book, 0, &mut buffer), Ok(None));
    assert_eq!(buffer, [8; 40]);
    assert_eq!(second::idle(&book, 1, &mut buffer), Ok(Some((1, 2))));
    assert_eq!(buffer[..8], [1, 2, 0, 0, 4, 0, 0, 0]);
    assert_eq!(buffer[8..], [8; 32]);
}
