//! Categories above and below each other, by the parents of all.

/// Is a category the other one or below it?
pub fn under(parents: &[u8], mut lower: u8, upper: u8) -> bool {
    while lower > upper {
        lower = parents[usize::from(lower)];
    }
    lower == upper
}

/// The categories that name this one as parent.
pub fn children(parents: &[u8], category: u8) -> Vec<u8> {
    let numbers = 1..parents.len() as u8;
    numbers
        .filter(|&i| parents[usize::from(i)] == category)
        .collect()
}

/// Is nothing below this category?
pub fn is_leaf(parents: &[u8], category: u8) -> bool {
    children(parents, category).is_empty()
}

/// The leaves that a category covers, less those of the excluded ones.
pub fn leaves(parents: &[u8], category: u8, excluded: &[u8]) -> Vec<u8> {
    let out = |leaf: u8| excluded.iter().any(|&x| under(parents, leaf, x));
    let numbers = 0..parents.len() as u8;
    numbers
        .filter(|&i| is_leaf(parents, i) && under(parents, i, category) && !out(i))
        .collect()
}

#[cfg(test)]
mod tests {
    use super::*;

    #[test]
    fn families() {
        let parents = [0, 0, 1, 1, 0];
        assert_eq!(children(&parents, 1), [2, 3]);
        assert_eq!(leaves(&parents, 0, &[3]), [2, 4]);
        assert_eq!(leaves(&[0], 0, &[]), [0]);
    }
}
