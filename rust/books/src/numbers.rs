//! Numbers of users and rules, those that there are and others.

use crate::draft::{leaves, Draft};
use crate::random::Random;

/// A user's number: mostly a leaf's, else any category's or none's.
pub fn user(random: &mut Random, draft: &Draft) -> u32 {
    match random.below(8) {
        0 => out_of_range(random, draft.users.len()),
        1 => random.below(draft.users.len()) as u32,
        _ => u32::from(random.one(&leaves(&draft.users))),
    }
}

/// A number at or past a count, some of which would be in range if cut to a byte or shifted out.
pub fn out_of_range(random: &mut Random, count: usize) -> u32 {
    let count = count as u32;
    let one = random.below(count.max(1) as usize) as u32;
    let high = 1 << random.between(8, 31);
    random.one(&[
        count,
        count + 1,
        32,
        255,
        256,
        high + one,
        u32::MAX,
        1 << 31,
    ])
}
