//! Plans for Tree. They name column 0 and function 0 alone, so that they are accepted with every book that has both.

/// A plan, the row whose tree is asked for, and what is said of it.
pub struct Asked {
    pub name: &'static str,
    pub plan: Vec<u8>,
    pub row: u32,
}

/// A column; the deepest tree; one of as many nodes as are written; one of (3^63 - 1) / 2, which is refused.
pub fn asked() -> [Asked; 4] {
    [
        chain("tree, 1 node", 0, |i| [2, 0, i, 255]),
        chain("tree, 64 nodes", 63, |i| [2, 0, i, 255]),
        chain("tree, 4096 nodes", 12, |i| {
            [2, 0, i, if i < 11 { i } else { 255 }]
        }),
        chain("tree, refused", 62, |i| [3, i, i, i]),
    ]
}

/// A column, and up to the row asked for rows that name the row before them.
fn chain(name: &'static str, row: u8, next: fn(u8) -> [u8; 4]) -> Asked {
    let rows = [[1, 0, 0, 0]].into_iter().chain((0..row).map(next));
    Asked {
        name,
        plan: rows.flatten().collect(),
        row: row.into(),
    }
}
