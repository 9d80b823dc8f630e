//! Two engines' answers to a case compared, and how they differ.

use crate::answer::{self, Answer};
use crate::engine::Engine;
use crate::reached::Reached;
use crate::records::{counts, places};
use crate::text;
use books::draft::BLOCK;
use books::edits::Record;
use books::records::{Records, PLACES, USERS};
use books::Case;
use std::fmt;

/// A case that two engines answer differently, or whose buffers they leave differently.
#[derive(Clone, Debug)]
pub struct Difference {
    /// The case before the call.
    pub case: Case,
    /// For each engine its name, its answer and the case after the call.
    pub sides: [(&'static str, Answer, Case); 2],
}

impl fmt::Display for Difference {
    fn fmt(&self, f: &mut fmt::Formatter<'_>) -> fmt::Result {
        write!(f, "{}", text::write(&self.case))?;
        for (name, answer, after) in &self.sides {
            writeln!(f, "# {name}: {answer}")?;
            for left in left(&self.case, after) {
                writeln!(f, "# {name} leaves {left}")?;
            }
        }
        Ok(())
    }
}

/// What a call changed: of records the words, the counts of users and the places one by one, of an edit's record
/// the numbers beside it and the blocks one by one, else the whole buffer.
fn left(before: &Case, after: &Case) -> Vec<String> {
    if let (Some(before), Some(after)) = (before.edited(), after.edited()) {
        return left_of_edited(before, after);
    }
    if let (Some(before), Some(after)) = (before.records(), after.records()) {
        return left_of_records(before, after);
    }
    let lines = text::write(after);
    let buffer = lines.lines().last().filter(|_| before != after);
    buffer.into_iter().map(str::to_string).collect()
}

fn left_of_edited(before: &Record, after: &Record) -> Vec<String> {
    let beside = [
        ("rules", before.rules, after.rules),
        ("marks", before.marks, after.marks),
    ];
    let beside = beside
        .into_iter()
        .filter(|(_, before, after)| before != after);
    let mut lines: Vec<String> = beside
        .map(|(name, _, after)| format!("{name} {after}"))
        .collect();
    let [before, after] = [before, after].map(|record| record.blocks.chunks(BLOCK));
    let changed = before.zip(after).enumerate();
    let changed = changed.filter(|(_, (before, after))| before != after);
    lines.extend(changed.map(|(i, (_, after))| format!("block {i} {}", text::hex(after))));
    lines
}

fn left_of_records(before: &Records, after: &Records) -> Vec<String> {
    let words = before.ledger.iter().zip(&after.ledger).enumerate();
    let changed = words.filter(|(_, (word, left))| word != left);
    let mut lines: Vec<String> = changed
        .map(|(i, (_, left))| format!("word {i} {left:016x}"))
        .collect();
    let of = |records: &Records, user: usize| counts(&records.tally, user);
    let counted = (0..USERS).filter(|&user| of(before, user) != of(after, user));
    lines.extend(counted.map(|user| {
        let of = of(after, user);
        let (admitted, declined, dropped) = (of.admitted, of.declined, of.dropped);
        format!("user {user} admitted {admitted} declined {declined} dropped {dropped}")
    }));
    let [before, after] = [before, after].map(|records| places(&records.holds).places);
    let changed = (0..PLACES).filter(|&place| before[place] != after[place]);
    lines.extend(changed.map(|place| {
        let of = after[place];
        let words: String = of.words.iter().map(|word| format!(" {word:x}")).collect();
        format!(
            "place {place} user {} number {} words{words}",
            of.user, of.number
        )
    }));
    lines
}

/// Both answers to one case, or how they differ. What was given up differs from nothing.
pub fn compare(engines: [&dyn Engine; 2], case: &Case) -> Result<[Answer; 2], Box<Difference>> {
    let sides = engines.map(|engine| {
        let mut after = case.clone();
        let answer = answer::of(engine, &mut after);
        (engine.name(), answer, after)
    });
    let answers = [sides[0].1, sides[1].1];
    let same = answers[0] == answers[1] && sides[0].2 == sides[1].2;
    if same || answers.contains(&Answer::GaveUp) {
        return Ok(answers);
    }
    let case = case.clone();
    Err(Box::new(Difference { case, sides }))
}

/// Compares and counts one case.
pub fn try_one(
    engines: [&dyn Engine; 2],
    case: &Case,
    reached: &mut Reached,
) -> Result<Answer, Box<Difference>> {
    let [one, two] = compare(engines, case)?;
    let given_up = [one, two].contains(&Answer::GaveUp);
    let answer = if given_up { Answer::GaveUp } else { one };
    reached.count(case, answer);
    Ok(answer)
}

/// Both engines agree on an answer that the documents rule out.
pub fn wrong(
    engines: [&dyn Engine; 2],
    case: Case,
    wanted: Answer,
    got: Answer,
) -> Box<Difference> {
    let sides = [
        ("documents", wanted, case.clone()),
        (engines[0].name(), got, case.clone()),
    ];
    Box::new(Difference { case, sides })
}

#[cfg(test)]
mod tests {
    use super::*;

    /// Of a ledger the words that differ are said, of a tally the users' counts, of a hold record the places,
    /// not all of them.
    #[test]
    fn what_a_call_leaves() {
        let before = Records::fresh();
        let mut after = before.clone();
        assert!(left_of_records(&before, &after).is_empty());
        (after.ledger[33], after.ledger[1_023]) = (16, 1 << 63);
        (after.tally.declined[1], after.tally.admitted[31]) = (1, 5);
        after.tally.dropped[31] = 6;
        (after.holds.users[2], after.holds.numbers[7]) = (40, 9);
        after.holds.words[255] = 31;
        let zeros = " 0".repeat(31);
        let lines = [
            "word 33 0000000000000010",
            "word 1023 8000000000000000",
            "user 1 admitted 0 declined 1 dropped 0",
            "user 31 admitted 5 declined 0 dropped 6",
            &format!("place 2 user 40 number 0 words 0{zeros}"),
            &format!("place 7 user 0 number 9 words{zeros} 1f"),
        ];
        assert_eq!(left_of_records(&before, &after), lines);
    }

    /// Of an edit's record the blocks that differ are said.
    #[test]
    fn what_an_edit_leaves() {
        let before = Record::of(&[]);
        let mut after = before.clone();
        assert!(left_of_edited(&before, &after).is_empty());
        (after.rules, after.marks) = (7, 5);
        (after.blocks[BLOCK], after.blocks[36 * BLOCK - 1]) = (1, 2);
        let zeros = "00".repeat(BLOCK - 1);
        let lines = [
            "rules 7",
            "marks 5",
            &format!("block 1 01{zeros}"),
            &format!("block 35 {zeros}02"),
        ];
        assert_eq!(left_of_edited(&before, &after), lines);
    }
}
