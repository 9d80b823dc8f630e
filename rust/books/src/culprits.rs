//! Books on which the search for the few rules behind a block has much to do: 31 users, 60 leaves, 15
//! operations, everything obtainable, rules of three references. Each shows which of the others are left
//! when rules are dropped by trial.

use crate::draft::{reference, Draft, Reference, Rule, ACCESS, CONDITION};
use crate::named::{hard_head, ALL};

/// The highest operation.
const LAST: u16 = 1 << 15;

/// A hard book, the rule that is asked about, and the mask of the others behind its block.
#[derive(Clone, Debug)]
pub struct Hard {
    /// The name of the book.
    pub name: &'static str,
    /// The book.
    pub draft: Draft,
    /// The rule that is asked about.
    pub rule: u32,
    /// Bit r for each other rule that is left.
    pub others: u32,
}

/// The hard books.
pub fn hard() -> Vec<Hard> {
    vec![
        together(),
        together_at_end(),
        twins("twins, the lower asked", 0),
        twins("twins, the higher asked", 15),
    ]
}

/// All 32 rules are needed to close the first association: each choice of operations that has none raw
/// breaks one rule alone.
fn together() -> Hard {
    Hard {
        name: "32 together",
        draft: Draft {
            rules: parted(0, groups(), 4),
            ..hard_head()
        },
        rule: 30,
        others: u32::MAX - (1 << 30),
    }
}

/// The last 31 rules close the last association to the last user, and nothing else; all are needed. Rule
/// 0 accepts everything, and a search for what is closed to it comes to that association last.
fn together_at_end() -> Hard {
    let lasts = [23, 43, 63].map(|leaf| reference(leaf, CONDITION));
    let mut rules = vec![asking(0, &groups(), vec![[0; 3]])];
    rules.extend(parted(31, lasts, 3));
    Hard {
        name: "31 together at the end",
        draft: Draft {
            rules,
            ..hard_head()
        },
        rule: 0,
        others: u32::MAX - 1,
    }
}

/// Rules 0 to 14 are needed together, and rules 15 to 29 are the same once more, so that of each two
/// either would do: the lower number stays, unless its twin is asked about.
fn twins(name: &'static str, rule: u32) -> Hard {
    let once: Vec<Rule> = (1..16).map(|k| without(k, &groups())).collect();
    Hard {
        name,
        draft: Draft {
            rules: [once.clone(), once].concat(),
            ..hard_head()
        },
        rule,
        others: (1 << 15) - 2,
    }
}

/// Rules that are broken by all choices together and not without one of them: 14 by an operation of the
/// first reference each; where that has the last operation, 14 by one of the second; where both have it,
/// the others by a share of those of the third. Each is broken where a reference is raw, too.
fn parted(user: u8, of: [Reference; 3], shares: u16) -> Vec<Rule> {
    let not_last = [[ALL & !LAST, 0, 0], [0, ALL & !LAST, 0]];
    let all_but = |k: u16| ALL & !(1 << k);
    let first = (1..15).map(|k| vec![[all_but(k), 0, 0]]);
    let second = (1..15).map(|k| vec![not_last[0], [0, all_but(k), 0]]);
    let third = (0..shares).map(|share| {
        let others = (1..16).filter(|k| k % shares != share);
        let others = others.map(|k| 1 << k).sum();
        vec![not_last[0], not_last[1], [0, 0, others]]
    });
    let each = first.chain(second).chain(third);
    each.map(|restrictions| asking(user, &of, restrictions))
        .collect()
}

/// A rule that takes all operations of the first reference but one, for every user.
fn without(k: u16, of: &[Reference; 3]) -> Rule {
    asking(0, of, vec![[ALL & !(1 << k), 0, 0]])
}

fn asking(user: u8, of: &[Reference; 3], restrictions: Vec<[u16; 3]>) -> Rule {
    Rule {
        user,
        excluded: vec![],
        references: of.to_vec(),
        restrictions,
    }
}

/// The three groups.
fn groups() -> [Reference; 3] {
    [1, 2, 3].map(|group| reference(group, ACCESS))
}
