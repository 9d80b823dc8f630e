//! Books on which the search for closed data has much to do: 17 to 31 users, 60 leaves, 15 operations,
//! everything obtainable, 32 rules of three references.

use crate::draft::{leaves, reference, Draft, Reference, Rule, ACCESS, CONDITION, PROJECTION};
use crate::named::{filler, hard_head, ALL};
use crate::random::Random;

/// The highest operation.
const LAST: u16 = 1 << 15;

/// What is to be found in a hard book.
#[derive(Clone, Copy, Debug, PartialEq, Eq)]
pub enum Found {
    /// Every rule is open.
    Open,
    /// Rule 31 forbids. It closes the last association of every other rule to the last user, and
    /// nothing else.
    LastOfAll,
}

/// The hard books by name.
pub fn hard() -> Vec<(String, Draft, Found)> {
    let mut all = Vec::new();
    for exclusions in [0, 1, 8] {
        let name = |what: &str| format!("{what}, {exclusions} excluded");
        let last = opening_last(exclusions);
        all.push((
            name("closed at the end"),
            closed_at_end(&last),
            Found::LastOfAll,
        ));
        all.push((name("opening last"), last, Found::Open));
    }
    for (name, draft) in [
        ("one user apart", one_apart()),
        ("pairs in turn", pairs_in_turn()),
        ("a pair for each leaf", pair_each()),
        ("opposed at both ends", opposed_at_both_ends()),
        ("opposed everywhere", opposed_everywhere()),
        ("eight classes", eight_classes()),
        ("users apart", users_apart()),
    ] {
        all.push((name.to_string(), draft, Found::Open));
    }
    all
}

/// Every rule takes some choices by seven of its restrictions, and by the last one operation 15 for each
/// reference: hardly anything else is taken by all. Where exclusions are asked for, each rule leaves out
/// other users and other leaves.
fn opening_last(exclusions: usize) -> Draft {
    let mut random = Random::new(100 + exclusions as u64);
    let mut draft = hard_head();
    for _ in 0..32 {
        let mut rule = filler(&mut random, &draft, exclusions);
        if exclusions == 0 {
            rule.excluded = vec![];
        }
        rule.restrictions = (0..7).map(|_| decoy(&mut random)).collect();
        rule.restrictions.push([LAST; 3]);
        draft.rules.push(rule);
    }
    draft
}

/// Masks of some operations below the last, never empty.
fn decoy(random: &mut Random) -> [u16; 3] {
    let all = ALL & !LAST;
    [0; 3].map(|_| {
        let few = random.some_of(all);
        random.some_of(few) | 1 << random.between(1, 14)
    })
}

/// The same, but the last rule forbids the last leaves as conditions to the last user, and the others
/// leave out neither.
fn closed_at_end(draft: &Draft) -> Draft {
    let mut draft = draft.clone();
    let last = |group: u8| 3 + 20 * group;
    for rule in &mut draft.rules {
        rule.excluded.retain(|&user| user != 31);
        for of in &mut rule.references {
            let leaf = last(of.category);
            of.excluded.retain(|&out| out != leaf);
        }
    }
    draft.rules[31] = Rule {
        user: 31,
        excluded: vec![],
        references: (1..=3).map(|g| reference(last(g), CONDITION)).collect(),
        restrictions: vec![],
    };
    draft
}

/// 30 users whom all rules cover, and the last, whom one rule does not.
fn one_apart() -> Draft {
    let mut draft = opening_last(0);
    draft.rules[7].excluded = vec![31];
    draft
}

/// Each leaf of the first group has a rule of its own and opens under another pair of operations for the
/// other two, 25 pairs in turn. Seven rules over all leaves divide the users into 15 classes.
fn pairs_in_turn() -> Draft {
    let mut random = Random::new(25);
    let mut draft = hard_head();
    draft.data = [
        vec![(0, ALL)],
        vec![(0, 0); 3],
        vec![(1, 0); 25],
        vec![(2, 0); 17],
        vec![(3, 0); 18],
    ]
    .concat();
    let mut rule = |first: u8, excluded: Vec<u8>, pair: [u16; 2]| {
        let single = |random: &mut Random| 1 << random.between(1, 10);
        let mut restrictions: Vec<[u16; 3]> = (0..7)
            .map(|_| [0; 3].map(|_| single(&mut random)))
            .collect();
        restrictions.push([LAST, pair[0], pair[1]]);
        let references: Vec<Reference> = [first, 2, 3].map(|c| reference(c, ACCESS)).to_vec();
        Rule {
            user: 0,
            excluded,
            references,
            restrictions,
        }
    };
    for j in 0..25 {
        let pair = [1 << (11 + j / 5), 1 << (11 + j % 5)];
        draft.rules.push(rule(4 + j, vec![], pair));
    }
    let five = 0xF800;
    for k in 0..7 {
        let apart = vec![1 + k, 8 + k, 8 + (k + 6) % 7];
        draft.rules.push(rule(1, apart, [five, five]));
    }
    draft
}

/// Each leaf of the third group has a rule of its own and opens under another pair of operations for the
/// other two, 20 pairs. Two rules, for two halves of the users, can't both be kept, and nine rules that
/// accept everything divide the users further, into eleven groups: no user has all rules.
fn pair_each() -> Draft {
    let halves = (3..32).map(|user| if user < 18 { 1 } else { 2 });
    let opposed = vec![
        third_only(1, vec![], firsts(), LAST),
        third_only(2, vec![], firsts(), LAST >> 1),
    ];
    divided(in_two(halves), five_firsts(20), opposed, 1)
}

/// Like `pair_each`, with 14 pairs. The users of the two categories take turns, and their rules that can't
/// both be kept meet at the last association, which a search with the rules of all comes to last. Two users
/// of one category have such rules at the first one. The users fall into 22 groups.
fn opposed_at_both_ends() -> Draft {
    let opposed = vec![
        third_only(1, vec![], lasts(), LAST),
        third_only(2, vec![], lasts(), LAST >> 1),
        third_only(3, vec![], firsts(), LAST),
        third_only(31, vec![], firsts(), LAST >> 1),
    ];
    divided(in_two(in_turn()), five_firsts(14), opposed, 8)
}

/// The rules that can't both be kept meet at every association, and 19 rules divide the users into 27
/// groups. Ten pairs, each with a first operation of its own.
fn opposed_everywhere() -> Draft {
    let opposed = vec![
        repeated(third_only(1, vec![], groups(), LAST), 8),
        repeated(third_only(2, vec![], groups(), LAST >> 1), 8),
    ];
    let pairs = (0..10).map(|i| [LAST >> i, LAST >> (i / 5)]);
    divided(in_two(in_turn()), pairs.collect(), opposed, 8)
}

/// Three times two rules that can't both be kept meet at every association, each two for other halves of
/// the users: eight classes, of which each opens under operations of its own for the third reference. With
/// the dividing rules no two of the 17 users have the same rules. 14 pairs, each with a first operation of
/// its own.
fn eight_classes() -> Draft {
    let mut users = vec![0, 0, 0, 1, 1, 2, 2, 3, 3, 4, 4, 5, 5, 6, 6];
    users.extend((0..17).map(|i| 7 + i % 8));
    let opposed = vec![
        third_only(1, vec![], groups(), 0xFF00),
        third_only(2, vec![], groups(), 0x00FE),
        third_only(0, vec![4, 6], groups(), 0xF0F0),
        third_only(0, vec![3, 5], groups(), 0x0F0E),
        third_only(0, vec![8, 10, 12, 14], groups(), 0xCCCC),
        third_only(0, vec![7, 9, 11, 13], groups(), 0x3332),
    ];
    let pairs = (0..14).map(|i| [LAST >> i, LAST >> (i / 5)]);
    divided(users, pairs.collect(), opposed, 8)
}

/// Fifteen users have a rule of their own that asks for another operation of the third reference at every
/// association, so that no two of them can be tried together. Six pairs, each with a first operation of
/// its own.
fn users_apart() -> Draft {
    let own = |i: u8| third_only(1 + i, vec![], groups(), LAST >> i);
    let opposed = (0..15).map(|i| repeated(own(i), 8));
    let pairs = (0..6).map(|i| [LAST >> i, LAST >> (i / 5)]);
    divided(vec![0; 32], pairs.collect(), opposed.collect(), 8)
}

/// A root, two categories under it, and 29 users under these.
fn in_two(parents: impl Iterator<Item = u8>) -> Vec<u8> {
    [0; 3].into_iter().chain(parents).collect()
}

/// The two categories in turn.
fn in_turn() -> impl Iterator<Item = u8> {
    (3..32).map(|user| 2 - user % 2)
}

/// So many pairs of operations, with five first ones.
fn five_firsts(count: u16) -> Vec<[u16; 2]> {
    let pairs = (0..count).map(|i| [LAST >> (i % 5), LAST >> (i / 5)]);
    pairs.collect()
}

/// A book of 32 rules: one that accepts everything; one for each pair, by which a leaf of the third group
/// opens under these operations of the other two; the opposed ones; and as many as there is room for that
/// accept everything and leave out four users each. All restrictions but those of the opposed rules are
/// written so many times, and a search may have to go through all of them.
fn divided(users: Vec<u8>, pairs: Vec<[u16; 2]>, opposed: Vec<Rule>, times: usize) -> Draft {
    let everyone = leaves(&users);
    let mut draft = Draft {
        users,
        ..hard_head()
    };
    let add = |rules: &mut Vec<Rule>, rule: Rule| rules.push(repeated(rule, times));
    add(&mut draft.rules, accepting(vec![]));
    for (leaf, [first, second]) in (44..).zip(pairs) {
        let of = [1, 2, leaf].map(|category| reference(category, ACCESS));
        add(&mut draft.rules, rule(0, vec![], of, [first, second, 0]));
    }
    draft.rules.extend(opposed);
    let mut in_turn = everyone.into_iter().cycle();
    while draft.rules.len() < 32 {
        let apart = in_turn.by_ref().take(4).collect();
        add(&mut draft.rules, accepting(apart));
    }
    draft
}

/// The three groups; their first leaves put out; their last leaves as conditions.
fn groups() -> [Reference; 3] {
    [1, 2, 3].map(|group| reference(group, ACCESS))
}

fn firsts() -> [Reference; 3] {
    [4, 24, 44].map(|leaf| reference(leaf, PROJECTION))
}

fn lasts() -> [Reference; 3] {
    [23, 43, 63].map(|leaf| reference(leaf, CONDITION))
}

/// A rule with one restriction.
fn rule(user: u8, excluded: Vec<u8>, of: [Reference; 3], masks: [u16; 3]) -> Rule {
    Rule {
        user,
        excluded,
        references: of.to_vec(),
        restrictions: vec![masks],
    }
}

/// A rule over the three groups that accepts everything.
fn accepting(excluded: Vec<u8>) -> Rule {
    rule(0, excluded, groups(), [0; 3])
}

/// A rule that asks for these operations of the third reference and for nothing else.
fn third_only(user: u8, excluded: Vec<u8>, of: [Reference; 3], operations: u16) -> Rule {
    rule(user, excluded, of, [0, 0, operations])
}

/// The rule with its restrictions written so many times.
fn repeated(mut rule: Rule, times: usize) -> Rule {
    rule.restrictions = rule.restrictions.repeat(times);
    rule
}
