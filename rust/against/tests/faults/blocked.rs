//! Faults of Blocked.

use crate::{Faulty, GOOD};
use against::engine::{packed, unpacked, Blocking, STEPS};
use against::Engine;
use books::draft::BLOCK;
use second::access::Action;
use second::blocked::{data, opens, within, Datum};
use second::book::Book;
use second::rule::Restriction;
use second::{choice, idle, reading, Refusal};
use std::collections::BTreeSet;

#[derive(Clone, Copy, Debug, PartialEq, Eq)]
pub enum Fault {
    ForbidsBeforeNoRule,
    NeverForbids,
    CutsRuleToAByte,
    AskingRuleIsLeftOut,
    ForbiddingRulesAreLeftOut,
    OperationsThatNoFunctionHas,
    LeavesThatNoColumnCarries,
    LastUserOnly,
    FirstUserOnly,
    SecondAssociation,
    OrderByLeafFirst,
    LastReferenceFirst,
    ComparesWithSingleRules,
    NoActions,
    NeverClosed,
}

pub const FAULTS: [Fault; 15] = [
    Fault::ForbidsBeforeNoRule,
    Fault::NeverForbids,
    Fault::CutsRuleToAByte,
    Fault::AskingRuleIsLeftOut,
    Fault::ForbiddingRulesAreLeftOut,
    Fault::OperationsThatNoFunctionHas,
    Fault::LeavesThatNoColumnCarries,
    Fault::LastUserOnly,
    Fault::FirstUserOnly,
    Fault::SecondAssociation,
    Fault::OrderByLeafFirst,
    Fault::LastReferenceFirst,
    Fault::ComparesWithSingleRules,
    Fault::NoActions,
    Fault::NeverClosed,
];

impl Faulty for Fault {
    fn blocked(&self, book: &[u8], rule: u32) -> Blocking {
        let rule = match self {
            Fault::CutsRuleToAByte => rule % 256,
            _ => rule,
        };
        let answer = GOOD.blocked(book, rule)?;
        let number = answer.err().map(|refusal| refusal.number);
        Some(match (self, number) {
            (Fault::ForbidsBeforeNoRule, Some(24)) => Err(Refusal::of(26)),
            (Fault::NeverForbids, Some(26)) => Ok(self.found(book, rule)?),
            (_, Some(_)) => answer,
            (_, None) => Ok(self.found(book, rule)?),
        })
    }
}

impl Fault {
    /// What the fault finds for a rule that is there.
    pub fn found(&self, bytes: &[u8], rule: u32) -> Option<u32> {
        let right = GOOD.blocked(bytes, rule)?.unwrap_or(0);
        let mut book = reading::read(bytes).expect("it is accepted");
        let r = rule as usize;
        match self {
            Fault::SecondAssociation | Fault::OrderByLeafFirst | Fault::LastReferenceFirst => {
                return Some(self.in_another_order(&book, r).unwrap_or(right));
            }
            Fault::ComparesWithSingleRules if !closed_beside_one(bytes, r) => return Some(0),
            Fault::NoActions => return Some(right & !0x0040_4040),
            Fault::NeverClosed => return Some(0),
            _ => self.change(&mut book, r),
        }
        let found = within(&book, r, STEPS)?;
        Some(found.map_or(0, |(user, data)| packed(user as u32, &data)))
    }

    /// The book as the fault takes it.
    fn change(&self, book: &mut Book, rule: usize) {
        match self {
            Fault::AskingRuleIsLeftOut => {
                let masks = vec![BTreeSet::new(); 3];
                book.rules[rule].restrictions.push(Restriction { masks });
            }
            Fault::ForbiddingRulesAreLeftOut => {
                let forbidding = book.rules.iter_mut().filter(|r| r.restrictions.is_empty());
                forbidding.for_each(|r| r.users.clear());
            }
            Fault::OperationsThatNoFunctionHas => book.functions = (0..16).collect(),
            Fault::LeavesThatNoColumnCarries => {
                book.columns = book.data.leaves().into_iter().map(Some).collect();
            }
            Fault::LastUserOnly => {
                let users = &mut book.rules[rule].users;
                *users = users.last().copied().into_iter().collect();
            }
            Fault::FirstUserOnly => {
                let users = &mut book.rules[rule].users;
                *users = users.first().copied().into_iter().collect();
            }
            _ => {}
        }
    }

    /// The value where another closed association counts as the first; nothing where there are many
    /// to try.
    fn in_another_order(&self, book: &Book, rule: usize) -> Option<u32> {
        if idle::choices(book, rule) > 2_000 {
            return None;
        }
        let references = book.rules[rule].references.iter();
        let mut scope: Vec<Vec<Datum>> = references.map(|r| data(book, r)).collect();
        let by_leaf = |of: &mut Vec<Datum>| of.sort_by_key(|d| (d.leaf, d.action));
        match self {
            Fault::OrderByLeafFirst => scope.iter_mut().for_each(by_leaf),
            Fault::LastReferenceFirst => scope.reverse(),
            _ => {}
        }
        let all = book.all_rules();
        let mut left_out = usize::from(*self == Fault::SecondAssociation);
        let found = book.rules[rule].users.iter().find_map(|&user| {
            let mut closed = |association: &[Datum]| {
                let closed = !opens(book, &all, user, association);
                let skipped = closed && left_out > 0;
                left_out -= usize::from(skipped);
                closed && !skipped
            };
            let mut found = choice::first(&scope, &mut closed)?;
            if *self == Fault::LastReferenceFirst {
                found.reverse();
            }
            Some(packed(user as u32, &found))
        });
        Some(found.unwrap_or(0))
    }
}

/// Is the rule's data closed by it alone, or by it and one other rule?
fn closed_beside_one(book: &[u8], rule: usize) -> bool {
    let (head, rules) = book.split_at(4 * BLOCK);
    let rules: Vec<&[u8]> = rules.chunks(BLOCK).collect();
    rules.iter().any(|other| {
        let two = [head, rules[rule], other].concat();
        matches!(GOOD.blocked(&two, 0), Some(Ok(1..)))
    })
}

/// What is packed comes back.
#[test]
fn values_are_taken_apart() {
    let [projection, condition] = [Action::Projection, Action::Condition];
    let datum = |action, leaf| Datum { action, leaf };
    let three = vec![
        datum(condition, 63),
        datum(projection, 0),
        datum(projection, 5),
    ];
    assert_eq!(packed(31, &three), 0x1F85_80FF);
    for n in 1..=3 {
        let data = three[..n].to_vec();
        assert_eq!(unpacked(packed(31, &data)), (31, data));
    }
}
