//! Random plans, sound and damaged.

use crate::draft::Draft;
use crate::random::Random;

/// How the rows of a plan hang together.
#[derive(Clone, Copy, PartialEq, Eq)]
enum Shape {
    /// Rows name any row below.
    Wide,
    /// Rows name the row just below, mostly.
    Deep,
    /// Where two rows are named, both are the row just below, mostly: the paths double.
    Doubling,
    /// A column, its functions and an output, again and again.
    Shown,
    /// The same, but two values at a time meet in a function or a Choose, with functions above it.
    Joined,
}

/// A random plan that is to be accepted with this book.
pub fn sound(random: &mut Random, draft: &Draft) -> Vec<u8> {
    if draft.columns.is_empty() {
        return vec![];
    }
    let shape = random.one(&[
        Shape::Wide,
        Shape::Deep,
        Shape::Doubling,
        Shape::Shown,
        Shape::Joined,
    ]);
    let rows = match random.below(4) {
        0 => 64,
        1 => random.below(65),
        _ => random.below(16),
    };
    let mut plan = Plan::default();
    while plan.rows.len() < rows {
        match shape {
            Shape::Shown => plan.add_shown(random, draft),
            Shape::Joined => plan.add_joined(random, draft),
            _ => plan.add_row(random, draft, shape),
        }
    }
    plan.rows.truncate(rows);
    plan.rows.concat()
}

/// A plan for the book, two times in three sound.
pub fn any(random: &mut Random, draft: &Draft) -> Vec<u8> {
    match random.below(6) {
        0 | 1 => damaged(random, draft),
        2 | 3 => few(random, draft),
        _ => sound(random, draft),
    }
}

/// A sound plan of 64 rows that name any row below, for a book with columns.
pub fn full(random: &mut Random, draft: &Draft) -> Vec<u8> {
    let mut plan = Plan::default();
    while plan.rows.len() < 64 {
        plan.add_row(random, draft, Shape::Wide);
    }
    plan.rows.concat()
}

/// A sound plan of one to three values, each with an output or a condition.
pub fn few(random: &mut Random, draft: &Draft) -> Vec<u8> {
    let mut plan = Plan::default();
    let values = random.between(1, 3).min(draft.columns.len());
    for _ in 0..values {
        if random.chance(1, 2) {
            plan.add_joined(random, draft);
        } else {
            plan.add_shown(random, draft);
        }
    }
    plan.rows.truncate(64);
    plan.rows.concat()
}

/// A plan that is being made.
#[derive(Default)]
pub(crate) struct Plan {
    /// Its rows.
    pub(crate) rows: Vec<[u8; 4]>,
    /// The rows of kind 1 to 3, which others may name.
    namable: Vec<u8>,
}

impl Plan {
    /// Adds a row, and gives its number.
    pub(crate) fn add(&mut self, row: [u8; 4]) -> u8 {
        let number = self.rows.len() as u8;
        if row[0] <= 3 {
            self.namable.push(number);
        }
        self.rows.push(row);
        number
    }

    fn add_row(&mut self, random: &mut Random, draft: &Draft, shape: Shape) {
        let kind = match shape {
            _ if self.namable.is_empty() => 1,
            Shape::Doubling => random.one(&[1, 2, 2, 2, 2, 3, 3, 3, 3, 4, 5]),
            _ => random.one(&[1, 1, 1, 2, 2, 2, 2, 3, 4, 4, 5]),
        };
        let kind = match kind {
            2 if draft.functions.is_empty() => 3,
            kind => kind,
        };
        let row = self.row(random, draft, shape, kind);
        self.add(row);
    }

    fn row(&self, random: &mut Random, draft: &Draft, shape: Shape, kind: u8) -> [u8; 4] {
        let mut name = || self.name(random, shape);
        let [a, b, c] = [name(), name(), name()];
        match kind {
            1 => [1, random.below(draft.columns.len()) as u8, 0, 0],
            2 => {
                let function = random.below(draft.functions.len()) as u8;
                let single = random.chance(1, 2);
                [2, function, b, if single { 255 } else { c }]
            }
            3 => [3, a, b, c],
            kind => [kind, a, 0, 0],
        }
    }

    /// A row to name; 0 while there is none.
    fn name(&self, random: &mut Random, shape: Shape) -> u8 {
        let last = self.namable.last().copied().unwrap_or(0);
        let just_below = match shape {
            Shape::Doubling => random.chance(9, 10),
            Shape::Deep => random.chance(3, 4),
            Shape::Wide | Shape::Shown | Shape::Joined => false,
        };
        if just_below {
            last
        } else {
            random.pick(&self.namable).unwrap_or(0)
        }
    }

    /// A value, put out or decided by.
    fn add_shown(&mut self, random: &mut Random, draft: &Draft) {
        let (value, _) = self.add_value(random, draft);
        self.add([random.one(&[4, 4, 5]), value, 0, 0]);
    }

    /// A value joined with another or itself by a function or a Choose, put out or decided by.
    fn add_joined(&mut self, random: &mut Random, draft: &Draft) {
        let (value, label) = self.add_value(random, draft);
        let other = match random.below(3) {
            0 => value,
            _ => self.add_value(random, draft).0,
        };
        let mut rows = [value, other];
        random.shuffle(&mut rows);
        let [b, c] = rows;
        let joined = match random.below(3) {
            1.. if !draft.functions.is_empty() => [2, function(random, draft, label), b, c],
            _ => [3, random.one(&self.namable), b, c],
        };
        let joined = self.add(joined);
        let value = self.add_functions(random, draft, label, joined);
        self.add([random.one(&[4, 4, 5]), value, 0, 0]);
    }

    /// A column with functions above it: the row of the last one, and the column's label.
    fn add_value(&mut self, random: &mut Random, draft: &Draft) -> (u8, u8) {
        let column = random.below(draft.columns.len());
        let label = draft.columns[column];
        let row = self.add([1, column as u8, 0, 0]);
        (self.add_functions(random, draft, label, row), label)
    }

    /// Functions of one row above a row, for a label: the row of the last one.
    fn add_functions(&mut self, random: &mut Random, draft: &Draft, label: u8, row: u8) -> u8 {
        let mut last = row;
        while !draft.functions.is_empty() && random.chance(1, 2) {
            last = self.add([2, function(random, draft, label), last, 255]);
        }
        last
    }
}

/// A function of a book that has some, mostly one whose operation the label supports, or would support if
/// nothing were withdrawn.
fn function(random: &mut Random, draft: &Draft, label: u8) -> u8 {
    let any = random.below(draft.functions.len()) as u8;
    let owned = match label {
        255 => 0,
        leaf => draft.owned_above(leaf),
    };
    match random.below(4) {
        0 => any,
        _ => random.pick(&functions_of(draft, owned)).unwrap_or(any),
    }
}

/// The functions whose operation a label supports.
pub(crate) fn supported_functions(draft: &Draft, label: u8) -> Vec<u8> {
    let supported = match label {
        255 => 0,
        leaf => draft.supported(leaf),
    };
    functions_of(draft, supported)
}

/// The functions whose operation is in a mask.
fn functions_of(draft: &Draft, supported: u16) -> Vec<u8> {
    (0..draft.functions.len() as u8)
        .filter(|&f| supported >> draft.functions[usize::from(f)] & 1 == 1)
        .collect()
}

/// A sound plan with one damage, aimed at 21 or 22.
pub fn damaged(random: &mut Random, draft: &Draft) -> Vec<u8> {
    let mut plan = sound(random, draft);
    if random.chance(1, 4) {
        damage_length(random, &mut plan);
    } else {
        damage_row(random, draft, &mut plan);
    }
    plan
}

fn damage_length(random: &mut Random, plan: &mut Vec<u8>) {
    match random.below(4) {
        0 => plan.truncate(plan.len().saturating_sub(random.between(1, 3))),
        1 => plan.extend(random.bytes(3)),
        2 => {
            // A sound row again and again, one row too many and more.
            let long = 260 + 4 * random.below(3) * random.below(100);
            let row = [1, 0, 0, 0];
            let missing = (long - plan.len()) / 4;
            plan.extend(row.repeat(missing));
        }
        _ => {
            let more = random.between(1, 300);
            plan.extend(random.bytes(more));
        }
    }
}

fn damage_row(random: &mut Random, draft: &Draft, plan: &mut Vec<u8>) {
    if plan.is_empty() {
        plan.extend(random.bytes(4));
        return;
    }
    let row = random.below(plan.len() / 4);
    let byte = 4 * row + random.below(4);
    let ends = [4, 5].map(|kind| plan.chunks(4).position(|row| row[0] == kind));
    match random.below(9) {
        0 => plan[byte] = random.byte(),
        1 => plan[4 * row] = random.one(&[0, 6, 7, 255]),
        2 => plan[4 * row] = random.between(1, 5) as u8,
        3 => plan[byte] = row as u8,
        4 => plan[byte] = (row + 1) as u8,
        5 => plan[byte] = 255,
        6 => plan[byte] = draft.columns.len() as u8,
        7 => plan[byte] = draft.functions.len() as u8,
        _ => {
            let end = ends.into_iter().flatten().next().unwrap_or(0);
            plan[byte] = end as u8;
        }
    }
}
