//! Faults of Tree (document 02, N7).

use crate::{assert_shown_again, Faulty, FaultyEngine, GOOD};
use against::engine::nodes_and_length;
use against::run::try_case;
use against::{Engine, Reached};
use books::trees::{self, extents, Tree, MOST};
use books::{case, valid, Case, Random};
use second::Refusal;
use std::collections::BTreeSet;

#[derive(Clone, Copy, Debug, PartialEq, Eq)]
pub enum Fault {
    ChildrenFromTheLast,
    DecidingRowLast,
    DecidingRowIsLost,
    FirstChildIsLost,
    SecondRowIsLost,
    NoSecondRowIsTheFirst,
    NoSecondRowIsWritten,
    FunctionIsAChild,
    SameRowOnceInAnApply,
    RowReachedTwiceIsWrittenOnce,
    ChildrenOfOneAreLeftOutTheNextTime,
    NodeAfterItsChildren,
    OneSpaceALevel,
    TopIsALevelIn,
    NumbersOfTwoDigits,
    NumbersFromOne,
    ChooseIsAnApply,
    LastLineFeedIsLeftOut,
    TwoByteLineFeeds,
    EmptyLineAtTheEnd,
    NoLimit,
    LimitIsOneHigher,
    LimitIsOneLower,
    CountsEachRowOnce,
    CountIsOneMore,
    LengthWithoutTheLastByte,
    WritesPastTheRoom,
    OneByteShortIsAccepted,
    ExactRoomIsRefused,
    WritesWhatFitsAndRefuses,
    RefusalClearsTheBuffer,
    ClearsTheRest,
    EndsWithAZero,
    ClearsTheByteAfterTheBuffer,
    RoomBeforeRow,
    RowBeforeFaultyRow,
    RowBeforePlanLength,
    NoRowIsTheLast,
    OutputHasATree,
    CutsRowToAByte,
    PlaceIsTheRow,
}

pub const FAULTS: [Fault; 41] = [
    Fault::ChildrenFromTheLast,
    Fault::DecidingRowLast,
    Fault::DecidingRowIsLost,
    Fault::FirstChildIsLost,
    Fault::SecondRowIsLost,
    Fault::NoSecondRowIsTheFirst,
    Fault::NoSecondRowIsWritten,
    Fault::FunctionIsAChild,
    Fault::SameRowOnceInAnApply,
    Fault::RowReachedTwiceIsWrittenOnce,
    Fault::ChildrenOfOneAreLeftOutTheNextTime,
    Fault::NodeAfterItsChildren,
    Fault::OneSpaceALevel,
    Fault::TopIsALevelIn,
    Fault::NumbersOfTwoDigits,
    Fault::NumbersFromOne,
    Fault::ChooseIsAnApply,
    Fault::LastLineFeedIsLeftOut,
    Fault::TwoByteLineFeeds,
    Fault::EmptyLineAtTheEnd,
    Fault::NoLimit,
    Fault::LimitIsOneHigher,
    Fault::LimitIsOneLower,
    Fault::CountsEachRowOnce,
    Fault::CountIsOneMore,
    Fault::LengthWithoutTheLastByte,
    Fault::WritesPastTheRoom,
    Fault::OneByteShortIsAccepted,
    Fault::ExactRoomIsRefused,
    Fault::WritesWhatFitsAndRefuses,
    Fault::RefusalClearsTheBuffer,
    Fault::ClearsTheRest,
    Fault::EndsWithAZero,
    Fault::ClearsTheByteAfterTheBuffer,
    Fault::RoomBeforeRow,
    Fault::RowBeforeFaultyRow,
    Fault::RowBeforePlanLength,
    Fault::NoRowIsTheLast,
    Fault::OutputHasATree,
    Fault::CutsRowToAByte,
    Fault::PlaceIsTheRow,
];

/// Nodes above which no fault goes on.
const FEW: u128 = 40_000;

impl Faulty for Fault {
    fn tree(&self, given: &mut Tree) -> Result<u32, Refusal> {
        match GOOD.tree(&mut given.clone()) {
            Err(refusal) => self.refused(given, refusal),
            Ok(value) => self.answered(given, value),
        }
    }
}

impl Fault {
    /// Where the good one refuses.
    fn refused(&self, given: &mut Tree, refusal: Refusal) -> Result<u32, Refusal> {
        let rows = given.plan.len() as u32 / 4;
        match (self, refusal.number) {
            (Fault::RowBeforeFaultyRow, 22) | (Fault::RowBeforePlanLength, 21)
                if given.row >= rows =>
            {
                return Err(Refusal::of(29));
            }
            // No text is as short.
            (Fault::RoomBeforeRow, 29) if given.lent < 9 => return Err(Refusal::of(30)),
            (Fault::CutsRowToAByte, 29) => return of_other_row(given, given.row % 256),
            (Fault::NoRowIsTheLast, 29) if given.row >= rows => {
                return of_other_row(given, rows.saturating_sub(1));
            }
            (Fault::OutputHasATree, 29) if given.row < rows => {
                let named = given.plan[4 * given.row as usize + 1];
                return of_other_row(given, named.into());
            }
            (Fault::PlaceIsTheRow, 29 | 30) => {
                return Err(Refusal::at(refusal.number, given.row as usize))
            }
            (Fault::RefusalClearsTheBuffer, _) => given.memory[..given.lent].fill(0),
            (_, 30) => return self.too_large(given),
            _ => {}
        }
        Err(refusal)
    }

    /// Where the nodes are too many or the room is too small.
    fn too_large(&self, given: &mut Tree) -> Result<u32, Refusal> {
        let all = extents(&given.plan);
        let extent = all[given.row as usize].expect("it is a value row");
        let (nodes, missing) = (
            extent.nodes,
            extent.bytes.saturating_sub(given.lent as u128),
        );
        let by_nodes = match self {
            Fault::NoLimit => nodes <= FEW && missing == 0,
            Fault::LimitIsOneHigher => nodes == MOST + 1 && missing == 0,
            _ => false,
        };
        let by_room = nodes <= MOST
            && match self {
                Fault::WritesPastTheRoom | Fault::WritesWhatFitsAndRefuses => true,
                Fault::OneByteShortIsAccepted => missing == 1,
                _ => false,
            };
        if !by_nodes && !by_room {
            return Err(Refusal::of(30));
        }
        let (text, nodes) = self.drawn(given);
        let room = match self {
            Fault::WritesPastTheRoom => given.memory.len(),
            _ => given.lent,
        };
        let fits = text.len().min(room);
        given.memory[..fits].copy_from_slice(&text[..fits]);
        match self {
            Fault::WritesWhatFitsAndRefuses => Err(Refusal::of(30)),
            _ => Ok(packed(nodes, text.len())),
        }
    }

    /// Where the good one writes a tree.
    fn answered(&self, given: &mut Tree, value: u32) -> Result<u32, Refusal> {
        let (nodes, length) = nodes_and_length(value);
        let refuses = match self {
            Fault::LimitIsOneLower => u128::from(nodes) == MOST,
            Fault::ExactRoomIsRefused => length as usize == given.lent,
            _ => false,
        };
        let (text, nodes) = self.drawn(given);
        if refuses || nodes as u128 > MOST || text.len() > given.lent {
            return Err(Refusal::of(30));
        }
        let (front, rest) = given.memory.split_at_mut(text.len());
        front.copy_from_slice(&text);
        let lent = given.lent - text.len();
        match self {
            Fault::ClearsTheRest => rest[..lent].fill(0),
            Fault::EndsWithAZero if lent > 0 => rest[0] = 0,
            Fault::ClearsTheByteAfterTheBuffer if rest.len() > lent => rest[lent] = 0,
            _ => {}
        }
        Ok(match self {
            Fault::CountIsOneMore => packed(nodes + 1, text.len()),
            Fault::LengthWithoutTheLastByte => packed(nodes, text.len() - 1),
            _ => packed(nodes, text.len()),
        })
    }

    /// The text that the fault makes of a row, and the nodes that it counts.
    fn drawn(&self, given: &Tree) -> (Vec<u8>, usize) {
        let mut drawing = Drawing {
            fault: *self,
            plan: &given.plan,
            reached: BTreeSet::new(),
            lines: vec![],
        };
        let level = usize::from(*self == Fault::TopIsALevelIn);
        drawing.walk(given.row as usize, level);
        let nodes = match self {
            Fault::CountsEachRowOnce => drawing.reached.len(),
            _ => drawing.lines.len(),
        };
        let mut text = drawing.lines.concat();
        match self {
            Fault::LastLineFeedIsLeftOut => text.truncate(text.len() - 1),
            Fault::EmptyLineAtTheEnd => text.push('\n'),
            _ => {}
        }
        (text.into_bytes(), nodes)
    }
}

/// Asks the good one about another row.
fn of_other_row(given: &mut Tree, row: u32) -> Result<u32, Refusal> {
    let asked = std::mem::replace(&mut given.row, row);
    let answer = GOOD.tree(given);
    given.row = asked;
    answer
}

/// As the header packs them, whatever they are.
fn packed(nodes: usize, length: usize) -> u32 {
    (nodes as u32 - 1)
        .wrapping_mul(1 << 20)
        .wrapping_add(length as u32)
}

/// A text that is being made.
struct Drawing<'a> {
    fault: Fault,
    plan: &'a [u8],
    /// The rows that were reached so far.
    reached: BTreeSet<usize>,
    lines: Vec<String>,
}

impl Drawing<'_> {
    fn walk(&mut self, row: usize, level: usize) {
        // Some faults have a row twice as often on each level.
        if self.lines.len() as u128 > FEW {
            return;
        }
        let first = self.reached.insert(row);
        if !first && self.fault == Fault::RowReachedTwiceIsWrittenOnce {
            return;
        }
        let line = self.line(row, level);
        let node_first = self.fault != Fault::NodeAfterItsChildren;
        if node_first {
            self.lines.push(line.clone());
        }
        if first || self.fault != Fault::ChildrenOfOneAreLeftOutTheNextTime {
            let children = self.children(row).into_iter();
            // One that is no row of the plan is written, and nothing is below it.
            children.for_each(|child| match 4 * child < self.plan.len() {
                true => self.walk(child, level + 1),
                false => self.lines.push(format!("{child} apply\n")),
            });
        }
        if !node_first {
            self.lines.push(line);
        }
    }

    fn line(&self, row: usize, level: usize) -> String {
        let spaces = match self.fault {
            Fault::OneSpaceALevel => level,
            _ => 2 * level,
        };
        let spaces = " ".repeat(spaces);
        let word = match (self.plan[4 * row], self.fault) {
            (1, _) => "column",
            (3, Fault::ChooseIsAnApply) | (2, _) => "apply",
            _ => "choose",
        };
        match self.fault {
            Fault::NumbersOfTwoDigits => format!("{spaces}{row:02} {word}\n"),
            Fault::NumbersFromOne => format!("{spaces}{} {word}\n", row + 1),
            Fault::TwoByteLineFeeds => format!("{spaces}{row} {word}\r\n"),
            _ => format!("{spaces}{row} {word}\n"),
        }
    }

    /// The children that the fault takes a row to have.
    fn children(&self, row: usize) -> Vec<usize> {
        let [kind, a, b, c] = [0, 1, 2, 3].map(|i| usize::from(self.plan[4 * row + i]));
        let mut children = match (kind, self.fault) {
            (1, _) => vec![],
            (2, Fault::FunctionIsAChild) if a < row && (1..=3).contains(&self.plan[4 * a]) => {
                vec![a, b]
            }
            (2, Fault::SecondRowIsLost) => vec![b],
            (2, Fault::SameRowOnceInAnApply) if b == c => vec![b],
            (2, Fault::NoSecondRowIsTheFirst) if c == 255 => vec![b, b],
            (2, Fault::NoSecondRowIsWritten) => vec![b, c],
            (2, _) if c == 255 => vec![b],
            (2, _) => vec![b, c],
            (_, Fault::DecidingRowLast) => vec![b, c, a],
            (_, Fault::DecidingRowIsLost) => vec![b, c],
            _ => vec![a, b, c],
        };
        match self.fault {
            Fault::ChildrenFromTheLast => children.reverse(),
            Fault::FirstChildIsLost if !children.is_empty() => drop(children.remove(0)),
            _ => {}
        }
        children
    }
}

/// Both engines have the fault, so that they never differ.
pub fn is_found_by_the_sentences(fault: Fault) {
    let faulty = FaultyEngine(fault);
    let engines: [&dyn Engine; 2] = [&faulty, &faulty];
    let mut random = Random::new(11);
    let difference = (0..3_000).find_map(|_| {
        let size = case::next_size(&mut random);
        let draft = valid::draft(&mut random, size);
        let given = trees::any(&mut random, &draft, &draft.bytes());
        try_case(engines, &Case::Tree(given), &mut Reached::default()).err()
    });
    let difference = difference.unwrap_or_else(|| panic!("{fault:?} not found"));
    let (name, stated, _) = &difference.sides[0];
    println!("{fault:?} against '{stated}'");
    assert_eq!(*name, "documents");
    assert_shown_again(engines, &difference);
}
