//! Calls of Tree (document 02, N7), with plans whose trees are small, deep, or of about 4,096 nodes.

use crate::draft::Draft;
use crate::plans::{self, Plan};
use crate::random::Random;

/// The nodes above which no tree is written.
pub const MOST: u128 = 4_096;

/// Bytes with room for every text: 4,096 lines of at most 126 spaces, two digits, a space, a word of six
/// letters and a line feed.
pub const ROOM: usize = 4_096 * 136;

/// What Tree is given.
#[derive(Clone, Debug, PartialEq, Eq)]
pub struct Tree {
    /// The book.
    pub book: Vec<u8>,
    /// The plan.
    pub plan: Vec<u8>,
    /// The row's number.
    pub row: u32,
    /// So many bytes of the memory are lent.
    pub lent: usize,
    /// The buffer as it is before, and what comes after it.
    pub memory: Vec<u8>,
}

/// How large a tree and its text are.
#[derive(Clone, Copy, Debug, PartialEq, Eq)]
pub struct Extent {
    /// Its nodes.
    pub nodes: u128,
    /// The bytes of its text.
    pub bytes: u128,
}

/// The extent of each row's tree, for any bytes; none for a row that is no Column, Apply or Choose.
pub fn extents(plan: &[u8]) -> Vec<Option<Extent>> {
    let mut all: Vec<Option<Extent>> = Vec::new();
    for row in plan.chunks_exact(4).take(64) {
        let (word, named): (&str, &[u8]) = match *row {
            [1, ..] => ("column", &[]),
            [2, .., 255] => ("apply", &row[2..3]),
            [2, ..] => ("apply", &row[2..]),
            [3, ..] => ("choose", &row[1..]),
            _ => {
                all.push(None);
                continue;
            }
        };
        let line = format!("{} {word}\n", all.len());
        let lower = named.iter().filter_map(|&i| *all.get(usize::from(i))?);
        let own = Extent {
            nodes: 1,
            bytes: line.len() as u128,
        };
        all.push(Some(lower.fold(own, Extent::with_child)));
    }
    all
}

impl Extent {
    /// Each line of a child is two spaces further in.
    fn with_child(self, child: Extent) -> Extent {
        Extent {
            nodes: self.nodes + child.nodes,
            bytes: self.bytes + child.bytes + 2 * child.nodes,
        }
    }
}

/// A call of Tree for any row of any plan.
pub fn any(random: &mut Random, draft: &Draft, book: &[u8]) -> Tree {
    let plan = match random.below(8) {
        0 => plans::damaged(random, draft),
        1 => plans::few(random, draft),
        2 | 3 => plans::sound(random, draft),
        _ => {
            let nodes = nodes(random);
            grown(random, draft, nodes)
        }
    };
    let extents = extents(&plan);
    let row = a_row(random, &extents);
    let extent = extents.get(row as usize).copied().flatten();
    let lent = lent(random, extent);
    let after = random.below(24);
    // A short pattern again and again, as large buffers come often.
    let pattern = random.bytes(61);
    let memory = pattern.into_iter().cycle();
    Tree {
        book: book.to_vec(),
        plan,
        row,
        lent,
        memory: memory.take(lent + after).collect(),
    }
}

/// A row's number: mostly the last that has a tree, or any that has one; else any row's or none's.
fn a_row(random: &mut Random, extents: &[Option<Extent>]) -> u32 {
    let with_tree = |&row: &usize| extents[row].is_some();
    let value_rows: Vec<usize> = (0..extents.len()).filter(with_tree).collect();
    let any = random.below(extents.len()) as u32;
    let count = extents.len() as u32;
    let high = 1 << random.between(9, 31);
    match random.below(8) {
        0 => random.one(&[
            count,
            count + 1,
            63,
            64,
            255,
            256,
            256 + any,
            high + any,
            1 << 31,
            u32::MAX,
        ]),
        1 => any,
        2 | 3 => random.pick(&value_rows).map_or(any, |row| row as u32),
        _ => value_rows.last().map_or(any, |&row| row as u32),
    }
}

/// The nodes of a tree to be grown, often about the limit.
fn nodes(random: &mut Random) -> usize {
    let few = random.between(2, 40);
    let more = random.between(41, 4_089);
    let about = random.between(4_090, 4_102);
    let above = random.between(4_103, 30_000);
    random.one(&[few, few, more, about, 4_096, 4_097, above])
}

/// The bytes of a buffer: as many as the text has, one less or one more, few or many.
fn lent(random: &mut Random, extent: Option<Extent>) -> usize {
    let bytes = extent.map_or(0, |extent| extent.bytes.min(ROOM as u128) as usize);
    match random.below(10) {
        0..=3 => bytes,
        4 => bytes.saturating_sub(1),
        5 => bytes + 1,
        6 => random.below(bytes),
        7 => bytes + random.below(2_000),
        8 => random.one(&[0, 1, 8, 9, 10]),
        _ => ROOM,
    }
}

/// How a row's tree is made of a smaller one and of columns: of the one so many times, and of so many
/// columns. Three in all are a Choose, fewer an Apply.
#[derive(Clone, Copy)]
struct Step {
    times: usize,
    columns: usize,
}

const STEPS: [Step; 6] = [
    step(1, 0),
    step(1, 1),
    step(1, 2),
    step(2, 0),
    step(2, 1),
    step(3, 0),
];

const fn step(times: usize, columns: usize) -> Step {
    Step { times, columns }
}

impl Step {
    fn is_choose(self) -> bool {
        self.times + self.columns == 3
    }

    /// The nodes of the smaller tree, where this step can make so many of it. Without functions every
    /// tree has a multiple of three and one more.
    fn before(self, nodes: usize, functions: bool) -> Option<usize> {
        let lower = nodes.checked_sub(1 + self.columns)?;
        let before = lower / self.times;
        let made = before > 0 && lower % self.times == 0;
        let possible = functions || self.is_choose() && before % 3 == 1;
        (made && possible).then_some(before)
    }
}

/// The steps down from so many nodes to one. Some of them take little, so that the tree is deep.
fn steps(random: &mut Random, nodes: usize, functions: bool) -> Vec<Step> {
    // Without functions more of the other steps take little, and a plan has 64 rows.
    let most = if functions { 30 } else { 20 };
    let (mut left, mut slow) = (nodes, random.one(&[0, 0, 3, most]));
    let mut steps = Vec::new();
    while left > 1 {
        let mut possible = STEPS.to_vec();
        possible.retain(|step| step.before(left, functions).is_some());
        let slowly = slow > 0 && random.chance(3, 4);
        let fitting = possible.iter().filter(|step| (step.times == 1) == slowly);
        let fitting: Vec<Step> = fitting.copied().collect();
        let step = random.pick(&fitting).unwrap_or(possible[0]);
        slow -= usize::from(slowly);
        left = step.before(left, functions).unwrap_or(1);
        steps.push(step);
    }
    steps
}

/// A sound plan with a row whose tree has so many nodes. Where the book has no functions, it may have
/// up to two fewer; without columns there is no row.
pub fn grown(random: &mut Random, draft: &Draft, nodes: usize) -> Vec<u8> {
    if draft.columns.is_empty() {
        return vec![];
    }
    let functions = draft.functions.len();
    let nodes = if functions == 0 {
        nodes - (nodes + 2) % 3
    } else {
        nodes
    };
    let mut plan = Plan::default();
    for _ in 0..random.between(1, 3) {
        let column = random.below(draft.columns.len());
        plan.add([1, column as u8, 0, 0]);
    }
    let columns = plan.rows.len();
    let mut top = 0;
    for step in steps(random, nodes, functions > 0).into_iter().rev() {
        let mut named = vec![top; step.times];
        named.extend((0..step.columns).map(|_| random.below(columns) as u8));
        random.shuffle(&mut named);
        top = plan.add(match named[..] {
            [a, b, c] => [3, a, b, c],
            [b, c] => [2, random.below(functions) as u8, b, c],
            _ => [2, random.below(functions) as u8, top, 255],
        });
        if plan.rows.len() < 50 && random.chance(1, 10) {
            plan.add([random.one(&[4, 5]), top, 0, 0]);
        }
    }
    plan.rows.concat()
}

/// A plan for the small shop, and a row of it.
#[derive(Clone, Debug)]
pub struct Named {
    /// What it is called.
    pub name: &'static str,
    /// The plan.
    pub plan: Vec<[u8; 4]>,
    /// The row that is asked about.
    pub row: u32,
    /// The nodes of its tree.
    pub nodes: u128,
}

/// The plans by name: trees on both sides of the limit, the deepest, and the one with the most nodes.
pub fn named() -> Vec<Named> {
    let column = || vec![[1, 0, 0, 0]];
    // Each row has twice the nodes of the one below and one more: 2,047 and 4,095.
    let [half, doubled] = [11, 12].map(|rows| upward(column(), rows, twice));
    let and_column = [&doubled[..], &[[2, 0, 0, 11]]].concat();
    let chooses = |rows: usize| upward(column(), rows, three);
    vec![
        of_last("a column", 1, column()),
        of_last("64 levels", 64, upward(column(), 64, one)),
        of_last("4,096 nodes", 4_096, upward(doubled, 13, one)),
        of_last("4,097 nodes", 4_097, and_column),
        of_last("2,047 nodes below 53", 2_100, upward(half, 64, one)),
        of_last("7 Choose", 3_280, chooses(8)),
        of_last("8 Choose", 9_841, chooses(9)),
        of_last("63 Choose", (3u128.pow(64) - 1) / 2, chooses(64)),
    ]
}

fn of_last(name: &'static str, nodes: u128, plan: Vec<[u8; 4]>) -> Named {
    Named {
        name,
        row: plan.len() as u32 - 1,
        plan,
        nodes,
    }
}

/// Rows with one more above the last until there are so many.
fn upward(mut rows: Vec<[u8; 4]>, count: usize, above: fn(u8) -> [u8; 4]) -> Vec<[u8; 4]> {
    while rows.len() < count {
        let last = rows.len() as u8 - 1;
        rows.push(above(last));
    }
    rows
}

fn one(row: u8) -> [u8; 4] {
    [2, 0, row, 255]
}

fn twice(row: u8) -> [u8; 4] {
    [2, 0, row, row]
}

fn three(row: u8) -> [u8; 4] {
    [3, row, row, row]
}

#[cfg(test)]
mod tests {
    use super::*;
    use crate::named::small_shop;

    #[test]
    fn extents_of_named_plans() {
        for named in named() {
            let all = extents(&named.plan.concat());
            let extent = all[named.row as usize].expect("it is a value row");
            assert_eq!(extent.nodes, named.nodes, "{}", named.name);
            assert!(named.nodes > MOST || extent.bytes <= ROOM as u128);
        }
    }

    #[test]
    fn bytes_of_a_text() {
        let text = "2 apply\n  1 apply\n    0 column\n  0 column\n";
        let plan = [[1, 0, 0, 0], [2, 0, 0, 255], [2, 0, 1, 0]].concat();
        let bytes = extents(&plan)[2].map(|extent| extent.bytes);
        assert_eq!(bytes, Some(text.len() as u128));
    }

    /// Plans of at most 64 rows, with the nodes that were asked for.
    #[test]
    fn grown_to_size() {
        let mut random = Random::new(10);
        let shop = small_shop();
        let no_function = Draft {
            functions: vec![],
            ..shop.clone()
        };
        for nodes in (1..200).chain(4_000..4_200).chain([29_999, 30_000]) {
            let plan = grown(&mut random, &shop, nodes);
            assert!(plan.len() <= 256, "{} rows", plan.len() / 4);
            assert_eq!(most(&plan), nodes as u128);
            let plan = grown(&mut random, &no_function, nodes);
            assert!(plan.len() <= 256, "{} rows", plan.len() / 4);
            assert_eq!(most(&plan), (nodes - (nodes + 2) % 3) as u128);
        }
    }

    fn most(plan: &[u8]) -> u128 {
        let nodes = extents(plan).into_iter().flatten().map(|of| of.nodes);
        nodes.max().unwrap_or(0)
    }
}
