//! Faults of Culprits (document 02, N6).

use crate::{assert_shown_again, blocked, Faulty, FaultyEngine, GOOD};
use against::engine::{unpacked, Causes};
use against::run::try_case;
use against::{Engine, Reached};
use books::{case, Case, Random};
use second::book::Book;
use second::culprits::broken_by_choice;
use second::rule::{Restriction, Rule};
use second::{reading, Refusal};
use std::collections::BTreeSet;
use std::ops::Range;

#[derive(Clone, Copy, Debug, PartialEq, Eq)]
pub enum Fault {
    ForbidsBeforeNoRule,
    NeverForbids,
    CutsRuleToAByte,
    DropsFromTheLowest,
    DropsTheAskingRule,
    AskingRuleDoesNotCount,
    LastDropIsNotUndone,
    StopsWhereItOpens,
    FewestRules,
    KeepsRulesOfOtherUsers,
    RulesOfOtherUsersCount,
    KeepsForbiddingRules,
    ForbiddingRulesAreLeftOut,
    OperationsThatNoFunctionHas,
    SecondAssociation,
    LastUserOnly,
    AskingBitIsMissing,
    AskingBitIsAddedTwice,
    UnblockedHasAMask,
    EmptyMaskIsUnblocked,
}

pub const FAULTS: [Fault; 20] = [
    Fault::ForbidsBeforeNoRule,
    Fault::NeverForbids,
    Fault::CutsRuleToAByte,
    Fault::DropsFromTheLowest,
    Fault::DropsTheAskingRule,
    Fault::AskingRuleDoesNotCount,
    Fault::LastDropIsNotUndone,
    Fault::StopsWhereItOpens,
    Fault::FewestRules,
    Fault::KeepsRulesOfOtherUsers,
    Fault::RulesOfOtherUsersCount,
    Fault::KeepsForbiddingRules,
    Fault::ForbiddingRulesAreLeftOut,
    Fault::OperationsThatNoFunctionHas,
    Fault::SecondAssociation,
    Fault::LastUserOnly,
    Fault::AskingBitIsMissing,
    Fault::AskingBitIsAddedTwice,
    Fault::UnblockedHasAMask,
    Fault::EmptyMaskIsUnblocked,
];

impl Faulty for Fault {
    fn culprits(&self, book: &[u8], rule: u32) -> Causes {
        let rule = match self {
            Fault::CutsRuleToAByte => rule % 256,
            _ => rule,
        };
        let answer = GOOD.culprits(book, rule)?;
        let number = answer.err().map(|refusal| refusal.number);
        Some(match (self, number) {
            (Fault::ForbidsBeforeNoRule, Some(24)) => Err(Refusal::of(26)),
            (Fault::NeverForbids, Some(26)) => Ok(self.found(book, rule)?),
            (_, Some(_)) => answer,
            (_, None) => Ok(self.found(book, rule)?),
        })
    }
}

impl Fault {
    /// What the fault finds for a rule that is there.
    fn found(&self, bytes: &[u8], rule: u32) -> Option<u32> {
        let value = match self {
            Fault::NeverForbids => blocked::Fault::NeverForbids.found(bytes, rule)?,
            Fault::SecondAssociation => blocked::Fault::SecondAssociation.found(bytes, rule)?,
            Fault::LastUserOnly => blocked::Fault::LastUserOnly.found(bytes, rule)?,
            _ => GOOD.blocked(bytes, rule)?.unwrap_or(0),
        };
        let asking = 1 << rule;
        Some(match (self, value) {
            (Fault::UnblockedHasAMask, 0) => asking,
            (_, 0) => 0,
            _ => match (self, self.left(bytes, rule, value)) {
                (Fault::AskingBitIsMissing, left) => left & !asking,
                (Fault::AskingBitIsAddedTwice, left) => left.wrapping_add(asking),
                (Fault::EmptyMaskIsUnblocked, left) if left == asking => 0,
                (_, left) => left | asking,
            },
        })
    }

    /// The rules that the fault leaves of those that close an association.
    fn left(&self, bytes: &[u8], rule: u32, value: u32) -> u32 {
        let book = reading::read(bytes).expect("it is accepted");
        let (user, _) = unpacked(value);
        let covers = |r: &u32| book.rules[*r as usize].users.contains(&(user as usize));
        let permits = |r: &u32| !forbids(&book.rules[*r as usize]);
        let closed = Association::new(&self.changed(&book, rule), rule, value);
        let falling = closed.others().rev();
        match self {
            Fault::DropsFromTheLowest => closed.left(closed.others()),
            Fault::DropsTheAskingRule => closed.left(closed.rules.clone().rev()),
            Fault::LastDropIsNotUndone => {
                let last = closed.others().next().map_or(0, |lowest| 1 << lowest);
                closed.left(falling) & !last
            }
            Fault::StopsWhereItOpens => {
                let below = |r: u32| (1 << r) - 1;
                let stays = |&r: &u32| closed.by(below(r) | (1 << rule));
                closed.left(falling.take_while(stays))
            }
            Fault::FewestRules => closed.fewest(),
            Fault::KeepsRulesOfOtherUsers => closed.left(falling.filter(covers)),
            Fault::KeepsForbiddingRules => closed.left(falling.filter(permits)),
            _ => closed.left(falling),
        }
    }

    /// The book as the fault takes it when it has the user and the association.
    fn changed(&self, book: &Book, rule: u32) -> Book {
        let mut book = book.clone();
        match self {
            Fault::AskingRuleDoesNotCount => {
                let masks = vec![BTreeSet::new(); 3];
                let restrictions = &mut book.rules[rule as usize].restrictions;
                restrictions.push(Restriction { masks });
            }
            Fault::RulesOfOtherUsersCount => {
                let all = book.users.leaves();
                book.rules.iter_mut().for_each(|of| of.users.extend(&all));
            }
            Fault::ForbiddingRulesAreLeftOut => {
                let forbidding = book.rules.iter_mut().filter(|of| forbids(of));
                forbidding.for_each(|of| of.users.clear());
            }
            Fault::OperationsThatNoFunctionHas => book.functions = (0..16).collect(),
            _ => {}
        }
        book
    }
}

fn forbids(rule: &Rule) -> bool {
    rule.restrictions.is_empty()
}

/// A closed association that Blocked names.
struct Association {
    /// The rules of the book.
    rules: Range<u32>,
    /// The asking one.
    rule: u32,
    /// For each choice of operations the mask of the rules that it breaks.
    choices: Vec<u32>,
}

impl Association {
    fn new(book: &Book, rule: u32, value: u32) -> Association {
        let (user, data) = unpacked(value);
        let choices = broken_by_choice(book, user as usize, &data).into_iter();
        Association {
            rules: 0..book.rules.len() as u32,
            rule,
            choices: choices
                .map(|rules| rules.into_iter().map(|r| 1 << r).sum())
                .collect(),
        }
    }

    /// The other rules, lowest first.
    fn others(&self) -> impl DoubleEndedIterator<Item = u32> {
        let rule = self.rule;
        self.rules.clone().filter(move |&r| r != rule)
    }

    /// Is it closed by these rules?
    fn by(&self, rules: u32) -> bool {
        self.choices.iter().all(|broken| broken & rules != 0)
    }

    /// What is left of all rules when these are dropped by trial.
    fn left(&self, dropped: impl Iterator<Item = u32>) -> u32 {
        let all = self.rules.clone().map(|r| 1 << r).sum();
        dropped.fold(all, |left, r| match left & !(1 << r) {
            fewer if self.by(fewer) => fewer,
            _ => left,
        })
    }

    /// Of all masks with the asking rule that do, the first with the fewest rules; where there are many
    /// rules, what is left by trial.
    fn fewest(&self) -> u32 {
        if self.rules.end > 10 {
            return self.left(self.others().rev());
        }
        let masks = (0u32..1 << self.rules.end).filter(|mask| mask >> self.rule & 1 == 1);
        let closing = masks.filter(|&mask| self.by(mask));
        closing.min_by_key(|mask| mask.count_ones()).unwrap_or(0)
    }
}

/// Both engines have the fault, so that they never differ.
pub fn is_found_by_judge(fault: Fault) {
    let faulty = FaultyEngine(fault);
    let engines: [&dyn Engine; 2] = [&faulty, &faulty];
    let mut random = Random::new(9);
    let difference = (0..3_000).find_map(|_| {
        let size = case::next_size(&mut random);
        let mut cases = case::round(&mut random, size);
        cases.retain(|case| matches!(case, Case::Culprits { .. }));
        let tried = |case: &Case| try_case(engines, case, &mut Reached::default()).err();
        cases.iter().find_map(tried)
    });
    let difference = difference.unwrap_or_else(|| panic!("{fault:?} not found"));
    let (name, stated, _) = &difference.sides[0];
    println!("{fault:?} against '{stated}'");
    assert_eq!(*name, "documents");
    assert_shown_again(engines, &difference);
}
