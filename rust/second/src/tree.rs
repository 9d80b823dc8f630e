//! Lineage trees as text (document 02, N7).

use crate::plan::Row;

/// "given up once above 4,096"
pub const MOST: u128 = 4_096;

/// A row as it is reached from the top, with all that is reached through it. "A row reached twice is
/// written twice": it is then two nodes.
#[derive(Clone, Debug, PartialEq, Eq)]
pub struct Node {
    /// The number of its row.
    pub row: usize,
    /// "the kind word (column, apply, choose)"
    pub kind: &'static str,
    /// "Children come in the order a, b, c, as far as they are rows."
    pub children: Vec<Node>,
}

/// The kind word of "a value row"; an Output and a Condition have none.
fn kind(row: Row) -> Option<&'static str> {
    match row {
        Row::Column(_) => Some("column"),
        Row::Apply(..) => Some("apply"),
        Row::Choose(..) => Some("choose"),
        Row::Output(_) | Row::Condition(_) => None,
    }
}

/// The number of nodes of each row's tree, none for a row that has no tree. "The tree of row i has at
/// most 3 to the power (i + 1) nodes", and there are 64 rows, so no sum is too large.
pub fn counts(rows: &[Row]) -> Vec<Option<u128>> {
    let mut counts: Vec<Option<u128>> = Vec::new();
    for &row in rows {
        let lower: u128 = row.named().into_iter().filter_map(|i| counts[i]).sum();
        counts.push(kind(row).map(|_| 1 + lower));
    }
    counts
}

/// The tree of a row, node by node; none for a row that has none. Whoever asks knows that the nodes are
/// few.
pub fn of(rows: &[Row], row: usize) -> Option<Node> {
    let kind = kind(*rows.get(row)?)?;
    let lower = rows[row].named().into_iter();
    let children: Option<Vec<Node>> = lower.map(|i| of(rows, i)).collect();
    Some(Node {
        row,
        kind,
        children: children?,
    })
}

impl Node {
    /// The rows of the nodes with their levels below the top, "a node before its children".
    pub fn lines(&self) -> Vec<(usize, usize)> {
        let lower = self.children.iter().flat_map(Node::lines);
        let lower = lower.map(|(level, row)| (level + 1, row));
        [(0, self.row)].into_iter().chain(lower).collect()
    }

    /// The whole text.
    pub fn text(&self) -> String {
        let mut text = String::new();
        self.write(0, &mut text);
        text
    }

    /// "one line a node, a node before its children, two spaces a level below the top, then the decimal
    /// row number, a space, the kind word [..] and a line feed (byte 10)"
    fn write(&self, level: usize, text: &mut String) {
        let spaces = "  ".repeat(level);
        text.push_str(&format!("{spaces}{} {}\n", self.row, self.kind));
        let children = self.children.iter();
        children.for_each(|child| child.write(level + 1, text));
    }
}

#[cfg(test)]
mod tests {
    use super::*;

    /// A column, a function of it, a function of both, and a Choose between the two that the column
    /// decides; the function of both is put out.
    const ROWS: [Row; 5] = [
        Row::Column(0),
        Row::Apply(0, 0, None),
        Row::Apply(0, 1, Some(0)),
        Row::Output(2),
        Row::Choose(0, 2, 1),
    ];

    #[test]
    fn nodes_of_each_row() {
        let counts = counts(&ROWS);
        assert_eq!(counts, [Some(1), Some(2), Some(4), None, Some(8)]);
        let drawn = (0..6).map(|row| of(&ROWS, row).map(|tree| tree.lines().len() as u128));
        let drawn: Vec<Option<u128>> = drawn.collect();
        assert_eq!(drawn[..5], counts);
        assert_eq!(drawn[5], None);
    }

    #[test]
    fn levels_and_text() {
        let tree = of(&ROWS, 2).expect("it is a value row");
        assert_eq!(tree.lines(), [(0, 2), (1, 1), (2, 0), (1, 0)]);
        let text = "2 apply\n  1 apply\n    0 column\n  0 column\n";
        assert_eq!(tree.text(), text);
    }
}
