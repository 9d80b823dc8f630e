//! Categories and their parents, for users and for data.

use std::collections::BTreeSet;

/// The parent of each category. "it is below i, and 0 for category 0, the root."
#[derive(Clone, Debug)]
pub struct Hierarchy {
    parents: Vec<usize>,
}

impl Hierarchy {
    /// A hierarchy, if the parents keep the law.
    pub fn new(parents: Vec<usize>) -> Option<Hierarchy> {
        let lawful = |(i, &parent): (usize, &usize)| parent < i || (i == 0 && parent == 0);
        let sound = parents.iter().enumerate().all(lawful);
        sound.then_some(Hierarchy { parents })
    }

    /// Is there a category of this number?
    pub fn has(&self, category: usize) -> bool {
        category < self.parents.len()
    }

    /// The parent of a category, if it is not the root.
    pub fn parent(&self, category: usize) -> Option<usize> {
        (category != 0).then(|| self.parents[category])
    }

    /// The category, its parent, and so on up to the root.
    pub fn line(&self, category: usize) -> Vec<usize> {
        std::iter::successors(Some(category), |&c| self.parent(c)).collect()
    }

    /// "A leaf is a category that no other category names as parent; a root on its own is a leaf."
    pub fn is_leaf(&self, category: usize) -> bool {
        let named = (0..self.parents.len()).any(|i| self.parent(i) == Some(category));
        self.has(category) && !named
    }

    /// All leaves, lowest first.
    pub fn leaves(&self) -> BTreeSet<usize> {
        (0..self.parents.len())
            .filter(|&c| self.is_leaf(c))
            .collect()
    }

    /// A category with its descendants.
    pub fn family(&self, category: usize) -> BTreeSet<usize> {
        (0..self.parents.len())
            .filter(|&c| self.line(c).contains(&category))
            .collect()
    }

    /// Is `lower` a category below `upper`, and another than it?
    pub fn properly_below(&self, lower: usize, upper: usize) -> bool {
        self.has(lower) && lower != upper && self.line(lower).contains(&upper)
    }

    /// The leaves of what a category covers: "A category covers itself and its descendants, less
    /// each excluded category with its descendants."
    pub fn covered_leaves(&self, category: usize, excluded: &[usize]) -> BTreeSet<usize> {
        let mut covered = self.family(category);
        for &out in excluded {
            covered = &covered - &self.family(out);
        }
        &covered & &self.leaves()
    }
}

#[cfg(test)]
mod tests {
    use super::*;

    fn shop() -> Hierarchy {
        Hierarchy::new(vec![0, 0, 1, 1, 0]).unwrap()
    }

    #[test]
    fn parents_are_lower() {
        assert!(Hierarchy::new(vec![0, 1]).is_none());
        assert!(Hierarchy::new(vec![1]).is_none());
        assert!(Hierarchy::new(vec![0, 0, 1]).is_some());
    }

    #[test]
    fn a_root_on_its_own_is_a_leaf() {
        let alone = Hierarchy::new(vec![0]).unwrap();
        assert!(alone.is_leaf(0));
        assert!(!alone.is_leaf(1));
    }

    #[test]
    fn leaves_and_covered_leaves() {
        assert_eq!(shop().leaves(), BTreeSet::from([2, 3, 4]));
        assert_eq!(shop().covered_leaves(1, &[]), BTreeSet::from([2, 3]));
        assert_eq!(shop().covered_leaves(0, &[1]), BTreeSet::from([4]));
        assert_eq!(shop().covered_leaves(1, &[2, 3]), BTreeSet::new());
    }

    #[test]
    fn proper_descendants() {
        assert!(shop().properly_below(3, 0));
        assert!(!shop().properly_below(3, 3));
        assert!(!shop().properly_below(4, 1));
        assert!(!shop().properly_below(5, 0));
    }
}
