//! Faults of arrivals and departures (document 02, N11).

use crate::{assert_shown_again, FaultyEngine, GOOD};
use against::edits::{try_list, EVERY_LIST, NO_ARRIVAL, NO_DEPARTURE};
use against::run::try_case;
use against::{Difference, Engine, Reached};
use books::edit_lists::list;
use books::edits;
use books::valid::{self, Size};
use books::{Case, Random};

#[derive(Clone, Copy, Debug, PartialEq, Eq)]
pub enum Fault {
    /// No fault at all.
    Right,
    SetMarksAfreshAtArrivals,
    ClearMarksKeptAtArrivals,
    NewMarkAsHandedIn,
    NewMarkClear,
    NewMarkAsAlone,
    ClearMarksAfreshAtDepartures,
    SetMarksKeptAtDepartures,
    MarksNotMoved,
    MarkOfTheOneThatLeaves,
    LowerMarksMoved,
    IdleInTheOldBook,
    BitsPastKept,
    BitOfTheLastKept,
    BytesBehindLeftAtArrivals,
    BytesBehindLeftAtDepartures,
    LastBlockLeftAtDepartures,
    NumberLeft,
    MarksNotWritten,
    LengthBeforeFull,
    FullAbove32Alone,
    FullAt31,
    FullAfterTheBook,
    LongerBlocksCut,
    AbsentBeforeTheBook,
    NumberAfterTheBook,
    NumberCutToAByte,
    RuleCutToAByte,
    LastRuleIsAbsent,
    CheckOfTheNewBlockFirst,
    OldBookAlone,
    OldBookFirst,
    BookWithoutTheOneThatLeaves,
    PlaceOfTheNewBlockIsZero,
    BytesBehindRefused,
    RefusalClearsBytesBehind,
    RefusalPutsTheBlock,
    RefusalRaisesTheNumber,
    RefusalClearsMarks,
    RefusalClearsBitsPast,
    ArrivesFirst,
    LaterRulesNotMoved,
    NextRuleLeaves,
    LastTakesThePlace,
    MaskCutTo31Bits,
    MaskCutTo16Bits,
    RepliesWithTheOldMask,
    RepliesWithTheNumber,
    /// Idle itself is wrong: a rule is idle exactly while there is no other.
    IdleWhileAlone,
}

/// All but the first.
pub const FAULTS: [Fault; 48] = [
    Fault::SetMarksAfreshAtArrivals,
    Fault::ClearMarksKeptAtArrivals,
    Fault::NewMarkAsHandedIn,
    Fault::NewMarkClear,
    Fault::NewMarkAsAlone,
    Fault::ClearMarksAfreshAtDepartures,
    Fault::SetMarksKeptAtDepartures,
    Fault::MarksNotMoved,
    Fault::MarkOfTheOneThatLeaves,
    Fault::LowerMarksMoved,
    Fault::IdleInTheOldBook,
    Fault::BitsPastKept,
    Fault::BitOfTheLastKept,
    Fault::BytesBehindLeftAtArrivals,
    Fault::BytesBehindLeftAtDepartures,
    Fault::LastBlockLeftAtDepartures,
    Fault::NumberLeft,
    Fault::MarksNotWritten,
    Fault::LengthBeforeFull,
    Fault::FullAbove32Alone,
    Fault::FullAt31,
    Fault::FullAfterTheBook,
    Fault::LongerBlocksCut,
    Fault::AbsentBeforeTheBook,
    Fault::NumberAfterTheBook,
    Fault::NumberCutToAByte,
    Fault::RuleCutToAByte,
    Fault::LastRuleIsAbsent,
    Fault::CheckOfTheNewBlockFirst,
    Fault::OldBookAlone,
    Fault::OldBookFirst,
    Fault::BookWithoutTheOneThatLeaves,
    Fault::PlaceOfTheNewBlockIsZero,
    Fault::BytesBehindRefused,
    Fault::RefusalClearsBytesBehind,
    Fault::RefusalPutsTheBlock,
    Fault::RefusalRaisesTheNumber,
    Fault::RefusalClearsMarks,
    Fault::RefusalClearsBitsPast,
    Fault::ArrivesFirst,
    Fault::LaterRulesNotMoved,
    Fault::NextRuleLeaves,
    Fault::LastTakesThePlace,
    Fault::MaskCutTo31Bits,
    Fault::MaskCutTo16Bits,
    Fault::RepliesWithTheOldMask,
    Fault::RepliesWithTheNumber,
    Fault::IdleWhileAlone,
];

/// Those that give a wrong mask where the one handed in is right.
pub const AGAINST_LISTS: [Fault; 10] = [
    Fault::ClearMarksKeptAtArrivals,
    Fault::NewMarkAsHandedIn,
    Fault::NewMarkClear,
    Fault::NewMarkAsAlone,
    Fault::SetMarksKeptAtDepartures,
    Fault::MarksNotMoved,
    Fault::MarkOfTheOneThatLeaves,
    Fault::LowerMarksMoved,
    Fault::IdleInTheOldBook,
    Fault::IdleWhileAlone,
];

/// An arrival and a departure of one book.
fn both(random: &mut Random) -> [Case; 2] {
    let size = random.one(&[Size::Tiny, Size::Small]);
    let draft = valid::draft(random, size);
    let refusal = random.between(1, 9) as u32;
    let book = match random.chance(1, 3) {
        true => books::change::aimed(random, &draft, refusal),
        false => draft.bytes(),
    };
    [
        Case::Arrive(edits::arrive(random, &draft, &book)),
        Case::Depart(edits::depart(random, &draft, &book)),
    ]
}

/// The first edit at which two engines differ, or are wrong by its sentences.
fn first(engines: [&dyn Engine; 2], fault: Fault) -> Box<Difference> {
    let mut random = Random::new(6);
    let mut reached = Reached::default();
    let difference = (0..5_000).find_map(|_| {
        let mut edits = both(&mut random).into_iter();
        edits.find_map(|case| try_case(engines, &case, &mut reached).err())
    });
    let difference = difference.unwrap_or_else(|| panic!("{fault:?} not found"));
    let (name, answer, _) = &difference.sides[0];
    println!("{fault:?}: {name}: {answer}, {} cases", reached.cases);
    assert_shown_again(engines, &difference);
    difference
}

/// No edit and no list tells the right steps from the good engine.
pub fn without_fault() -> Reached {
    let engines: [&dyn Engine; 2] = [&FaultyEngine(Fault::Right), &GOOD];
    let mut random = Random::new(6);
    let mut reached = Reached::default();
    for _ in 0..20 {
        let edits = (0..20).flat_map(|_| both(&mut random)).collect::<Vec<_>>();
        let tried = edits
            .iter()
            .try_for_each(|case| try_case(engines, case, &mut reached));
        let list = list(&mut random, Size::Tiny);
        let tried = tried.and_then(|()| try_list(engines, &list, &mut reached));
        tried.unwrap_or_else(|difference| panic!("{difference}"));
    }
    reached
}

/// The engine with the fault is told from the good one.
pub fn is_found(fault: Fault) {
    let difference = first([&FaultyEngine(fault), &GOOD], fault);
    assert_eq!(difference.sides[0].0, "faulty");
}

/// Both engines have the fault: an edit is wrong by its sentences.
pub fn is_found_by_the_sentences(fault: Fault) {
    let faulty = FaultyEngine(fault);
    let difference = first([&faulty, &faulty], fault);
    assert_eq!(difference.sides[0].0, "documents");
}

/// Both engines have the fault: the mask after a list is not what Idle gives afresh.
pub fn is_found_by_the_lists(fault: Fault) {
    let faulty = FaultyEngine(fault);
    let engines: [&dyn Engine; 2] = [&faulty, &faulty];
    let mut random = Random::new(6);
    let mut reached = Reached::default();
    let difference = (0..200).find_map(|_| {
        let list = list(&mut random, Size::Tiny);
        try_list(engines, &list, &mut reached).err()
    });
    let difference = difference.unwrap_or_else(|| panic!("{fault:?} not found"));
    let (_, stated, _) = &difference.sides[0];
    println!("{fault:?} against '{stated}', {} cases", reached.cases);
    assert_eq!(*stated, EVERY_LIST);
    assert_shown_again(engines, &difference);
}

/// Both engines have a wrong Idle and edit by it: what is stated of Idle alone tells.
pub fn is_found_by_idle() {
    let faulty = FaultyEngine(Fault::IdleWhileAlone);
    let engines: [&dyn Engine; 2] = [&faulty, &faulty];
    for (edit, wanted) in [(0, NO_ARRIVAL), (1, NO_DEPARTURE)] {
        let mut random = Random::new(6);
        let mut reached = Reached::default();
        let difference = (0..1_000)
            .find_map(|_| try_case(engines, &both(&mut random)[edit], &mut reached).err());
        let difference = difference.expect("it is found");
        assert_eq!(difference.sides[0].1, wanted);
        assert_shown_again(engines, &difference);
    }
}
