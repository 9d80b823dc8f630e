//! Lineage trees of the small shop's plans, worked out by hand from document 02's N7.

use books::named::small_shop;
use second::Refusal;

const COLUMN: [u8; 4] = [1, 0, 0, 0];

/// Function 0 of one row and of two.
fn apply(row: u8) -> [u8; 4] {
    [2, 0, row, 255]
}

fn join(b: u8, c: u8) -> [u8; 4] {
    [2, 0, b, c]
}

fn choose(a: u8, b: u8, c: u8) -> [u8; 4] {
    [3, a, b, c]
}

/// A column, and each further row made of the one before, until there are so many.
fn chain(count: u8, row: impl Fn(u8) -> [u8; 4]) -> Vec<[u8; 4]> {
    let above = (1..count).map(|i| row(i - 1));
    [COLUMN].into_iter().chain(above).collect()
}

/// The answer for a row, and the buffer as it is left.
fn tree(rows: &[[u8; 4]], row: u32, lent: usize) -> (Result<(u32, u32), Refusal>, Vec<u8>) {
    let mut buffer = vec![7; lent];
    let answer = second::tree(&small_shop().bytes(), &rows.concat(), row, &mut buffer);
    (answer, buffer)
}

/// The tree of a row is this text, in a buffer of its length and in longer ones. In a shorter one it is
/// refused.
fn is_written(rows: &[[u8; 4]], row: u32, text: &str) {
    let (nodes, length) = (text.matches('\n').count() as u32, text.len());
    for more in [0, 1, 100] {
        let (answer, buffer) = tree(rows, row, length + more);
        assert_eq!(answer, Ok((nodes, length as u32)), "{text}");
        assert_eq!(buffer[..length], *text.as_bytes(), "{text}");
        assert_eq!(buffer[length..], vec![7; more], "{text}");
    }
    for lent in [0, 1, length - 1] {
        is_refused(rows, row, lent, 30);
    }
}

/// Refused with place 0, and the buffer is as it was.
fn is_refused(rows: &[[u8; 4]], row: u32, lent: usize, number: u32) {
    let refused = (Err(Refusal { number, place: 0 }), vec![7; lent]);
    assert_eq!(tree(rows, row, lent), refused, "row {row}, {lent} bytes");
}

/// More bytes than any text has.
const ROOM: usize = 1_000_000;

#[test]
fn a_column() {
    is_written(&[COLUMN], 0, "0 column\n");
    is_written(&[COLUMN; 64], 63, "63 column\n");
}

/// a of an Apply is a function, and 255 no row: "as far as they are rows".
#[test]
fn children_of_an_apply() {
    let rows = [COLUMN, [1, 2, 0, 0], [2, 1, 0, 255], join(1, 2), join(2, 1)];
    is_written(&rows, 2, "2 apply\n  0 column\n");
    let first = "3 apply\n  1 column\n  2 apply\n    0 column\n";
    is_written(&rows, 3, first);
    let second = "4 apply\n  2 apply\n    0 column\n  1 column\n";
    is_written(&rows, 4, second);
}

/// "Children come in the order a, b, c": the row that decides is the first.
#[test]
fn children_of_a_choose() {
    let rows = [COLUMN, COLUMN, COLUMN, choose(2, 0, 1), choose(0, 3, 2)];
    let inner = "3 choose\n  2 column\n  0 column\n  1 column\n";
    is_written(&rows, 3, inner);
    let outer =
        "4 choose\n  0 column\n  3 choose\n    2 column\n    0 column\n    1 column\n  2 column\n";
    is_written(&rows, 4, outer);
}

/// "The walk of an Apply and the walk of a Choose each pass lower rows to the other."
#[test]
fn apply_and_choose_in_turn() {
    let rows = [
        COLUMN,
        apply(0),
        choose(1, 0, 0),
        [4, 2, 0, 0],
        join(2, 1),
        choose(4, 0, 0),
    ];
    let text = "\
5 choose
  4 apply
    2 choose
      1 apply
        0 column
      0 column
      0 column
    1 apply
      0 column
  0 column
  0 column
";
    is_written(&rows, 5, text);
}

/// "A row reached twice is written twice", with all below it.
#[test]
fn a_row_reached_twice() {
    let rows = [COLUMN, apply(0), join(1, 1)];
    let text = "2 apply\n  1 apply\n    0 column\n  1 apply\n    0 column\n";
    is_written(&rows, 2, text);
}

/// Two spaces a level, and the row number is decimal: 63 levels below the top.
#[test]
fn the_deepest() {
    let line = |row: usize| match row {
        0 => format!("{}0 column\n", " ".repeat(126)),
        _ => format!("{}{row} apply\n", " ".repeat(2 * (63 - row))),
    };
    let text: String = (0..64).rev().map(line).collect();
    is_written(&chain(64, apply), 63, &text);
}

/// Row i of a chain of Choose has (3^(i+1) − 1) / 2 nodes: 3,280 for row 7, 9,841 for row 8. The last has
/// 30 digits of them.
#[test]
fn a_chain_of_choose() {
    let rows = chain(64, |row| choose(row, row, row));
    assert_eq!(tree(&rows, 7, ROOM).0.map(|answer| answer.0), Ok(3_280));
    for row in [8, 20, 40, 62, 63] {
        is_refused(&rows, row, ROOM, 30);
        is_refused(&rows, row, 0, 30);
    }
}

/// Each row of two equal rows has 2^(i+1) − 1 nodes: row 11 has 4,095. One row above it makes 4,096, and
/// one beside a column 4,097.
#[test]
fn about_4096_nodes() {
    let mut rows = chain(12, |row| join(row, row));
    rows.extend([apply(11), join(0, 11), join(11, 0), apply(12)]);
    let nodes = |row| tree(&rows, row, ROOM).0.map(|answer| answer.0);
    assert_eq!((nodes(11), nodes(12)), (Ok(4_095), Ok(4_096)));
    for row in [13, 14, 15] {
        is_refused(&rows, row, ROOM, 30);
    }
    // On level k below the top there are 2^k nodes, all of row 11 − k.
    let line = |k: usize| match 11 - k {
        0 => 2 * k + "0 column\n".len(),
        row => 2 * k + format!("{row} apply\n").len(),
    };
    let length: usize = (0..12).map(|k| (1 << k) * line(k)).sum();
    assert_eq!(tree(&rows, 11, length).0, Ok((4_095, length as u32)));
    is_refused(&rows, 11, length - 1, 30);
    // All of that one level further in, and a line above it.
    let above = length + 2 * 4_095 + "12 apply\n".len();
    assert_eq!(tree(&rows, 12, above).0, Ok((4_096, above as u32)));
    is_refused(&rows, 12, above - 1, 30);
}

/// "29 if the row is absent or not of kind 1 to 3", whatever the buffer.
#[test]
fn rows_without_a_tree() {
    let rows = [COLUMN, [4, 0, 0, 0], [5, 0, 0, 0]];
    for row in [1, 2, 3, 4, 63, 64, 255, 256, 1 << 31, u32::MAX] {
        is_refused(&rows, row, ROOM, 29);
        is_refused(&rows, row, 0, 29);
    }
    is_refused(&[], 0, ROOM, 29);
    is_refused(&[COLUMN; 64], 64, ROOM, 29);
    is_refused(&[COLUMN; 64], 256, ROOM, 29);
}

/// "Answers: Flows' refusals 1 to 22, then 29 [..], then 30": a damaged book with a plan too long, then a
/// faulty row, then an absent row, and no room throughout.
#[test]
fn refusals_in_their_order() {
    let mut damaged = small_shop().bytes();
    damaged[2 * 512] = 9;
    let sound = small_shop().bytes();
    let faulty = [COLUMN, apply(1)].concat();
    for (book, plan, row, number, place) in [
        (&damaged, vec![1], 9, 2, 2),
        (&damaged, faulty.clone(), 9, 2, 2),
        (&sound, vec![1], 9, 21, 0),
        (&sound, COLUMN.repeat(65), 9, 21, 0),
        (&sound, faulty.clone(), 9, 22, 1),
        (&sound, faulty, 0, 22, 1),
        (&sound, COLUMN.to_vec(), 9, 29, 0),
        (&sound, COLUMN.to_vec(), 0, 30, 0),
    ] {
        let answer = second::tree(book, &plan, row, &mut []);
        assert_eq!(answer, Err(Refusal { number, place }));
    }
    let mut nine = [7; 9];
    assert_eq!(second::tree(&sound, &COLUMN, 0, &mut nine), Ok((1, 9)));
    assert_eq!(nine, *b"0 column\n");
}
