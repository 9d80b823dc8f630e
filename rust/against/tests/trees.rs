//! Tree on plans whose texts were worked out by hand from document 02's N7, each beside its plan, with the
//! small shop's book.

use against::engine::by_name;
use books::named::small_shop;
use books::trees::Tree;
use second::Refusal;

/// Every engine answers so, and leaves the memory so: the text, else as it was.
fn answers(given: &Tree, wanted: Result<u32, Refusal>, text: &str) {
    let mut after = given.clone();
    after.memory[..text.len()].copy_from_slice(text.as_bytes());
    let engines = ["second", "naive", "engine"]
        .into_iter()
        .filter_map(by_name);
    for engine in engines {
        let mut left = given.clone();
        assert_eq!(engine.tree(&mut left), wanted, "{}", engine.name());
        assert_eq!(left, after, "{}", engine.name());
    }
}

fn given(plan: &[[u8; 4]], row: u32, lent: usize) -> Tree {
    Tree {
        book: small_shop().bytes(),
        plan: plan.concat(),
        row,
        lent,
        memory: vec![7; lent + 16],
    }
}

/// The text is written where it has room, with (nodes − 1) × 2^20 + its length as the value; in a buffer
/// one byte shorter it is refused.
fn is_written(plan: &[[u8; 4]], row: u32, text: &str) {
    let nodes = text.lines().count() as u32;
    let value = (nodes - 1) * 1_048_576 + text.len() as u32;
    for more in [0, 1, 500] {
        answers(&given(plan, row, text.len() + more), Ok(value), text);
    }
    is_refused(&given(plan, row, text.len() - 1), 30, 0);
}

fn is_refused(given: &Tree, number: u32, place: u32) {
    answers(given, Err(Refusal { number, place }), "");
}

const STATE: [u8; 4] = [1, 0, 0, 0];
const PRICE: [u8; 4] = [1, 2, 0, 0];

/// The price decides between its average and a state: row 3. Row 5 joins it with the price.
#[test]
fn a_price_and_a_state() {
    let plan = [
        STATE,
        PRICE,
        [2, 1, 1, 255],
        [3, 1, 2, 0],
        [4, 3, 0, 0],
        [2, 0, 1, 3],
        [5, 5, 0, 0],
    ];
    is_written(&plan, 0, "0 column\n");
    is_written(&plan, 2, "2 apply\n  1 column\n");
    let chosen = "3 choose\n  1 column\n  2 apply\n    1 column\n  0 column\n";
    is_written(&plan, 3, chosen);
    let joined = "\
5 apply
  1 column
  3 choose
    1 column
    2 apply
      1 column
    0 column
";
    is_written(&plan, 5, joined);
    for row in [4, 6, 7, 63, 64, 255, 256, 259, 1 << 31, u32::MAX] {
        is_refused(&given(&plan, row, 100), 29, 0);
        is_refused(&given(&plan, row, 0), 29, 0);
    }
}

/// The same row three times, and the last of 64 rows.
#[test]
fn a_row_three_times() {
    let mut plan = vec![STATE; 62];
    plan.extend([[2, 2, 9, 10], [3, 62, 62, 62]]);
    let each = "  62 apply\n    9 column\n    10 column\n";
    is_written(&plan, 63, &format!("63 choose\n{}", each.repeat(3)));
}

/// A damaged book before a faulty plan, a faulty plan before an absent row, and that before a small buffer.
#[test]
fn refusals_in_their_order() {
    let mut all = given(&[STATE, [2, 0, 1, 255]], 2, 0);
    all.book[512] = 9;
    is_refused(&all, 2, 1);
    all.book = small_shop().bytes();
    is_refused(&all, 22, 1);
    all.plan.pop();
    is_refused(&all, 21, 0);
    all.plan = STATE.to_vec();
    is_refused(&all, 29, 0);
    all.row = 0;
    is_refused(&all, 30, 0);
}
