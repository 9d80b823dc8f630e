//! The numbers of document 01's small shop by their names, and rules that use them.

use crate::draft::{reference, Rule};

/// The user category above the others.
pub const ANALYST: u8 = 0;
/// A user.
pub const REPORT: u8 = 1;
/// A user.
pub const MARKETING: u8 = 2;

/// The data category above State and City.
pub const ADDRESS: u8 = 1;
/// A leaf under Address.
pub const STATE: u8 = 2;
/// A leaf under Address.
pub const CITY: u8 = 3;
/// A leaf that supports avg and sum.
pub const PRICE: u8 = 4;

/// The mask of operation 1.
pub const AVG: u16 = 1 << 1;
/// The mask of operation 2.
pub const SUM: u16 = 1 << 2;

/// A rule with one mask for each reference in each restriction. A reference is an action and a data
/// category.
pub fn rule(user: u8, references: &[(u8, u8)], restrictions: &[&[u16]]) -> Rule {
    let restriction = |masks: &&[u16]| {
        let mut three = [0; 3];
        three[..masks.len()].copy_from_slice(masks);
        three
    };
    Rule {
        user,
        excluded: vec![],
        references: references
            .iter()
            .map(|&(action, category)| reference(category, action))
            .collect(),
        restrictions: restrictions.iter().map(restriction).collect(),
    }
}
