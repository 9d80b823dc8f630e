//! The lineage tree of a row.

use std::fmt;

/// The lineage tree of a row, as text: a line a node, a node before its children, two spaces a level
/// below the top, the row's number and its kind. It prints as its text, each line with its line feed.
#[derive(Clone, Debug, PartialEq, Eq, Hash)]
pub struct Tree {
    text: String,
    node_count: u32,
}

/// A node of a tree.
#[derive(Clone, Copy, Debug, PartialEq, Eq, Hash)]
pub struct Node {
    /// How many levels it is below the top.
    pub level: usize,
    /// The number of its row.
    pub row: usize,
}

impl Tree {
    /// The tree of a text that the engine wrote.
    pub(crate) fn new(text: &[u8], node_count: u32) -> Tree {
        let text = String::from_utf8_lossy(text).into_owned();
        Tree { text, node_count }
    }

    /// The text, for the records.
    pub fn text(&self) -> &str {
        &self.text
    }

    /// The number of nodes, 1 to 4,096, which are the lines of the text.
    pub fn node_count(&self) -> u32 {
        self.node_count
    }

    /// The nodes, as the lines have them.
    pub fn nodes(&self) -> impl Iterator<Item = Node> + '_ {
        self.text.lines().filter_map(node)
    }
}

/// The node of a line.
fn node(line: &str) -> Option<Node> {
    let words = line.trim_start_matches(' ');
    let (number, _) = words.split_once(' ')?;
    Some(Node {
        level: (line.len() - words.len()) / 2,
        row: number.parse().ok()?,
    })
}

impl fmt::Display for Tree {
    fn fmt(&self, f: &mut fmt::Formatter<'_>) -> fmt::Result {
        f.write_str(&self.text)
    }
}

#[cfg(test)]
mod tests {
    use super::*;

    #[test]
    fn lines_and_nodes() {
        let tree = Tree::new(b"63 choose\n  7 apply\n    0 column\n  9 column\n", 4);
        let nodes: Vec<_> = tree.nodes().map(|n| (n.level, n.row)).collect();
        assert_eq!(nodes, [(0, 63), (1, 7), (2, 0), (1, 9)]);
        assert_eq!(tree.node_count(), 4);
        assert_eq!(tree.to_string(), tree.text());
    }
}
