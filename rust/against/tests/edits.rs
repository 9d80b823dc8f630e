//! Rules that arrive at document 01's small shop and leave it, worked out by hand, for every engine (document 02,
//! N11).

use against::answer::{self, Answer};
use against::engine::by_name;
use against::run::try_case;
use against::Reached;
use books::draft::{seal, BLOCK};
use books::edit_lists::Edit;
use books::edits::Record;
use books::named::small_shop;
use second::Refusal;

/// A record of the small shop with these rules, in this order, and a mask.
fn record(rules: &[usize], marks: u32) -> Record {
    let mut record = Record::of(&small_shop().with_rules(rules).bytes());
    record.marks = marks;
    record
}

fn block(rule: usize) -> Vec<u8> {
    small_shop().rules[rule].block()
}

fn arrive(rule: usize) -> Edit {
    Edit::Arrive(block(rule))
}

fn refused(number: u32, place: u32) -> Answer {
    Answer::Refused(Refusal { number, place })
}

/// Every engine gives these answers from this record on, and leaves what is wanted.
fn each_answers(before: &Record, edits: &[(Edit, Answer)], wanted: &Record) {
    let engines = ["second", "naive", "engine"];
    for engine in engines.into_iter().filter_map(by_name) {
        let engine = engine.as_ref();
        let mut record = before.clone();
        for (i, (edit, wanted)) in edits.iter().enumerate() {
            let case = edit.with(&record);
            let mut after = case.clone();
            let answer = answer::of(engine, &mut after);
            assert_eq!(answer, *wanted, "{}, edit {i}", engine.name());
            let tried = try_case([engine, engine], &case, &mut Reached::default());
            tried.unwrap_or_else(|difference| panic!("{difference}"));
            record = after.edited().expect("it has a record").clone();
        }
        assert_eq!(record, *wanted, "{}", engine.name());
    }
}

/// Beside rule 1 both others are idle; without it none is.
#[test]
fn built_and_taken_down() {
    let edits = [
        (arrive(0), Answer::Marks(0)),
        (arrive(1), Answer::Marks(0b001)),
        (arrive(2), Answer::Marks(0b101)),
        (Edit::Depart(3), refused(24, 0)),
        (Edit::Depart(0), Answer::Marks(0b10)),
        (arrive(0), Answer::Marks(0b110)),
        (Edit::Depart(0), Answer::Marks(0)),
        (arrive(1), Answer::Marks(0b011)),
        (Edit::Depart(1), Answer::Marks(0b01)),
    ];
    each_answers(&record(&[], 0), &edits, &record(&[2, 1], 0b01));
}

/// Equal rules up to 32, of which each is idle beside the others, and what is refused there.
#[test]
fn up_to_32_rules() {
    let mut edits = vec![(arrive(1), Answer::Marks(0))];
    let all = |n: u32| Answer::Marks(u32::MAX >> (32 - n));
    edits.extend((2..=32).map(|n| (arrive(1), all(n))));
    edits.extend([
        (arrive(0), refused(33, 0)),
        (Edit::Arrive(vec![]), refused(33, 0)),
        (Edit::Depart(32), refused(24, 0)),
        (Edit::Depart(u32::MAX), refused(24, 0)),
        (Edit::Depart(31), all(31)),
        (Edit::Arrive(vec![0; 511]), refused(1, 0)),
        (arrive(1), all(32)),
        (Edit::Depart(0), all(31)),
        (arrive(0), all(32)),
    ]);
    let rules = [&[1; 31][..], &[0]].concat();
    each_answers(&record(&[], 0), &edits, &record(&rules, u32::MAX));
}

/// Set marks stay at arrivals and clear ones at departures, wrong as they are; bits past the last rule and bytes
/// behind the book go.
#[test]
fn wrong_masks_and_bytes_behind() {
    let mut before = record(&[1], 0xFFFF_FFFF);
    before.blocks[5 * BLOCK..].fill(0xEE);
    let edits = [(arrive(0), Answer::Marks(0b11))];
    each_answers(&before, &edits, &record(&[1, 0], 0b11));
    before.marks = 0xFFFF_FFFE;
    let edits = [(arrive(0), Answer::Marks(0b10))];
    each_answers(&before, &edits, &record(&[1, 0], 0b10));
    let mut before = record(&[0, 1, 2], 0xFFFF_FFF2);
    before.blocks[7 * BLOCK..].fill(0xEE);
    let edits = [(Edit::Depart(0), Answer::Marks(0))];
    each_answers(&before, &edits, &record(&[1, 2], 0));
    before.marks = 0xFFFF_FFFF;
    let edits = [(Edit::Depart(0), Answer::Marks(0b10))];
    each_answers(&before, &edits, &record(&[1, 2], 0b10));
}

/// The checks of all blocks, the new one among them, come before all kinds. A number above 32 comes before both.
#[test]
fn damaged_books() {
    let mut wrong_check = block(2);
    wrong_check[511] ^= 1;
    let mut before = record(&[0, 1], 0b01);
    before.blocks[0] = 9;
    seal(&mut before.blocks[..BLOCK]);
    let edits = [
        (arrive(2), refused(3, 0)),
        (Edit::Arrive(wrong_check.clone()), refused(2, 6)),
        (Edit::Depart(0), refused(3, 0)),
        (Edit::Depart(9), refused(3, 0)),
        (Edit::Arrive(vec![]), refused(1, 0)),
    ];
    each_answers(&before, &edits, &before);
    for rules in [33, u32::MAX] {
        before.rules = rules;
        let edits = [
            (Edit::Arrive(wrong_check.clone()), refused(33, 0)),
            (Edit::Arrive(vec![]), refused(33, 0)),
            (Edit::Depart(0), refused(1, 0)),
            (Edit::Depart(u32::MAX), refused(1, 0)),
        ];
        each_answers(&before, &edits, &before);
    }
}
