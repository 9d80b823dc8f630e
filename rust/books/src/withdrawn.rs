//! Withdrawn operations (document 02, N9) for random books, and rules that speak of them.

use crate::draft::{below, leaves, reference, under, Draft, Rule, ACCESS, CONDITION, PROJECTION};
use crate::named::ALL;
use crate::random::Random;

/// What each data category withdraws, for about a third of the books, more often where there is something to
/// inherit: the others have a block 1 of kind 2. It has a generator of its own, so that the other books of a
/// seed don't depend on it.
pub fn some(random: &Random, data: &[(u8, u16)], alphabet: &[u8]) -> Option<Vec<u16>> {
    let mut own = Random::new(random.clone().bits());
    let above = |(parent, _): &(u8, u16)| data[usize::from(*parent)].1;
    let inherits = data.iter().skip(1).any(|category| above(category) != 0);
    if !own.chance(if inherits { 5 } else { 1 }, 10) {
        return None;
    }
    // In some nothing is withdrawn, though the block is of kind 6.
    let often = own.one(&[0, 2, 3, 4, 4, 5, 6, 8]);
    let of_book = alphabet.iter().map(|&k| 1 << k).sum();
    Some(masks(&mut own, data, of_book, often))
}

/// Masks for so many categories in eight, none of which has an operation that the category owns.
fn masks(random: &mut Random, data: &[(u8, u16)], of_book: u16, often: usize) -> Vec<u16> {
    let mut masks = Vec::new();
    let mut supported: Vec<u16> = Vec::new();
    for (category, &(parent, own)) in data.iter().enumerate() {
        let inherited = match category {
            0 => 0,
            _ => supported[usize::from(parent)],
        };
        let mask = match random.chance(often, 8) {
            true => mask(random, inherited, of_book) & !own,
            false => 0,
        };
        masks.push(mask);
        supported.push(inherited & !mask | own);
    }
    masks
}

/// Mostly what a category inherits, else operations of the book, or any. What it does not inherit, and all
/// that a root withdraws, changes nothing.
fn mask(random: &mut Random, inherited: u16, of_book: u16) -> u16 {
    match random.below(8) {
        0 => random.some_of(of_book),
        1 => random.some_of(ALL),
        2..=4 => inherited,
        _ => random.some_of(inherited),
    }
}

/// A rule that asks for operations that its category supports and a leaf under it has withdrawn, and mostly one
/// that forbids such data or a part of them. None where there is no such leaf with a column.
pub fn rules(random: &mut Random, draft: &Draft) -> Vec<Rule> {
    let Some((category, lost)) = random.pick(&lost(draft)) else {
        return vec![];
    };
    let user = match random.below(3) {
        0 => random.below(draft.users.len()) as u8,
        _ => 0,
    };
    let rule = |category: u8, action: u8, restrictions: Vec<[u16; 3]>| Rule {
        user,
        excluded: vec![],
        references: vec![reference(category, action)],
        restrictions,
    };
    let more = random.some_of(draft.supported(category));
    let asked = random.one(&[lost, lost | more]);
    let mut rules = vec![rule(category, ACCESS, vec![[asked, 0, 0]])];
    let lower = below(&draft.parents(), category);
    let part = random.pick(&lower).unwrap_or(category);
    let of = random.one(&[category, part]);
    let action = random.one(&[ACCESS, ACCESS, PROJECTION, CONDITION]);
    if random.chance(2, 3) {
        rules.push(rule(of, action, vec![]));
    }
    rules
}

/// The categories that support what a leaf under them lacks as it was withdrawn, and what it lacks. A column
/// has the leaf.
pub(crate) fn lost(draft: &Draft) -> Vec<(u8, u16)> {
    let parents = draft.parents();
    let mut lost = Vec::new();
    for leaf in leaves(&parents) {
        if !draft.columns.contains(&leaf) {
            continue;
        }
        let lacking = draft.owned_above(leaf) & !draft.supported(leaf);
        let above = (0..leaf).filter(|&category| under(&parents, leaf, category));
        lost.extend(above.map(|category| (category, lacking & draft.supported(category))));
    }
    lost.retain(|(_, operations)| *operations != 0);
    lost
}
