//! A small book of addresses with withdrawn operations (document 02, N9): "Truncation suits addresses in
//! general but shows too much of a street." Its users are the small shop's.

use crate::draft::{Draft, Rule};

/// The data category above the others.
pub const EVERYTHING: u8 = 0;
/// Owns truncate.
pub const ADDRESS: u8 = 1;
/// Under Address, withdraws truncate.
pub const STREET: u8 = 2;
/// A leaf under Street that owns truncate again.
pub const HOUSE: u8 = 3;
/// A leaf under Street.
pub const LANE: u8 = 4;
/// A leaf under Address.
pub const CITY: u8 = 5;

/// The mask of operation 1.
pub const TRUNCATE: u16 = 1 << 1;

/// The book with these rules. Columns 0, 1 and 2 carry House, Lane and City; column 3 carries no label.
/// Function 0 has no operation, function 1 truncates.
pub fn book(rules: &[Rule]) -> Draft {
    Draft {
        users: vec![0, 0, 0],
        data: vec![
            (EVERYTHING, 0),
            (EVERYTHING, TRUNCATE),
            (ADDRESS, 0),
            (STREET, TRUNCATE),
            (STREET, 0),
            (ADDRESS, 0),
        ],
        withdrawn: Some(vec![0, 0, TRUNCATE, 0, 0, 0]),
        columns: vec![HOUSE, LANE, CITY, 255],
        functions: vec![0, 1],
        rules: rules.to_vec(),
    }
}
