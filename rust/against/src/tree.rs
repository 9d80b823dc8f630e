//! What document 02's N7 states of an answer of Tree: its text is read back by the plan's bytes, and its
//! refusals are held against the same engine's Flows.

use crate::answer::Answer;
use crate::compare::Difference;
use crate::engine::{nodes_and_length, Engine};
use books::trees::{extents, Tree, MOST};
use books::Case;
use second::Refusal;

const REFUSALS: Answer = Answer::Stated(
    "refused as by Flows, 1 to 22, then 29 if the row is absent or not of kind 1 to 3, then 30 if the \
     tree has above 4,096 nodes or its text exceeds the buffer",
);
const LEFT: Answer = Answer::Stated("what is refused leaves the buffer as it was");
const REST: Answer = Answer::Stated("the text is at the front of the buffer, the rest unchanged");
const COUNTED: Answer = Answer::Stated("the node count equals the lines written");
const BOUND: Answer = Answer::Stated("the tree of row i has at most 3 to the power (i + 1) nodes");
const LINES: Answer = Answer::Stated(
    "one line a node, a node before its children, two spaces a level, the row number, a space, the kind \
     word and a line feed; children in the order a, b, c",
);

/// Goes through one answer by the sentences.
pub fn try_tree(
    engines: [&dyn Engine; 2],
    given: &Tree,
    answer: Answer,
) -> Result<(), Box<Difference>> {
    let mut after = given.clone();
    // Its answer was compared before.
    let _ = engines[0].tree(&mut after);
    let Some(stated) = contradicted(engines[0], given, &after, answer) else {
        return Ok(());
    };
    let case = Case::Tree(given.clone());
    let sides = [
        ("documents", stated, case.clone()),
        (engines[0].name(), answer, Case::Tree(after)),
    ];
    Err(Box::new(Difference { case, sides }))
}

/// The first sentence that does not hold.
fn contradicted(engine: &dyn Engine, given: &Tree, after: &Tree, answer: Answer) -> Option<Answer> {
    let Answer::Written(value) = answer else {
        let refused = refusal(engine, given).map(Answer::Refused);
        return match refused == Some(answer) {
            false => Some(REFUSALS),
            true => (after != given).then_some(LEFT),
        };
    };
    if refusal(engine, given).is_some() {
        return Some(REFUSALS);
    }
    let (nodes, length) = nodes_and_length(value);
    let Some(text) = after.memory[..given.lent].get(..length as usize) else {
        return Some(REFUSALS);
    };
    let changed = |place: usize| after.memory[place] != given.memory[place];
    let lines = text.iter().filter(|&&byte| byte == b'\n').count();
    let in_turn = [
        ((text.len()..given.memory.len()).any(changed), REST),
        (lines != nodes as usize, COUNTED),
        (u128::from(nodes) > 3u128.pow(given.row + 1), BOUND),
        (!is_tree(&given.plan, given.row, text), LINES),
    ];
    let mut wrong = in_turn.into_iter().filter(|(wrong, _)| *wrong);
    wrong.next().map(|(_, stated)| stated)
}

/// Why the call is to be refused, by what the same engine refuses in Flows.
fn refusal(engine: &dyn Engine, given: &Tree) -> Option<Refusal> {
    if let Err(refusal) = engine.flows(&given.book, &given.plan, &mut [0; 32]) {
        return Some(refusal);
    }
    let extents = extents(&given.plan);
    let Some(Some(extent)) = extents.get(given.row as usize) else {
        return Some(Refusal::of(29));
    };
    let fits = extent.nodes <= MOST && extent.bytes <= given.lent as u128;
    (!fits).then_some(Refusal::of(30))
}

/// Is this the text of a row of an accepted plan? Each line is held against the next node to come.
fn is_tree(plan: &[u8], row: u32, text: &[u8]) -> bool {
    let mut to_come = vec![(0, row as usize)];
    for line in text.split_inclusive(|&byte| byte == b'\n') {
        let Some((level, row)) = to_come.pop() else {
            return false;
        };
        let (word, children): (&str, &[u8]) = match plan[4 * row..4 * row + 4] {
            [1, ..] => ("column", &[]),
            [2, _, b, 255] => ("apply", &[b]),
            [2, _, b, c] => ("apply", &[b, c]),
            [_, a, b, c] => ("choose", &[a, b, c]),
            _ => return false,
        };
        let spaces = line.iter().take_while(|&&byte| byte == b' ').count();
        let words = format!("{row} {word}\n");
        if spaces != 2 * level || line[spaces..] != *words.as_bytes() {
            return false;
        }
        let children = children.iter().rev();
        to_come.extend(children.map(|&child| (level + 1, usize::from(child))));
    }
    to_come.is_empty()
}

#[cfg(test)]
mod tests {
    use super::*;

    /// Row 2 is a function of rows 1 and 0, row 1 a function of row 0.
    #[test]
    fn texts_are_read_back() {
        let plan = [[1, 0, 0, 0], [2, 7, 0, 255], [2, 7, 1, 0]].concat();
        let reads = |row, text: &str| is_tree(&plan, row, text.as_bytes());
        assert!(reads(0, "0 column\n") && reads(1, "1 apply\n  0 column\n"));
        let text = "2 apply\n  1 apply\n    0 column\n  0 column\n";
        assert!(reads(2, text));
        for (part, other) in [
            ("2 apply", "1 apply"),
            (
                "  1 apply\n    0 column\n  0 column",
                "  0 column\n  1 apply\n    0 column",
            ),
            ("    0", "   0"),
            ("\n    0", "\n  0"),
            ("0 column\n  0 column", "0 column"),
            ("  0 column\n", "  0 column\n\n"),
            ("column", "Column"),
            ("1 apply", "01 apply"),
        ] {
            assert!(!reads(2, &text.replacen(part, other, 1)), "{part}, {other}");
        }
        assert!(!reads(2, text.trim_end()) && !reads(2, "") && !reads(1, text));
    }
}
