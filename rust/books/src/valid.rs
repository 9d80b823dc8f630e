//! Random books that are to be accepted.

use crate::draft::{below, leaves, under, Draft, Reference, Rule, ACCESS, CONDITION, PROJECTION};
use crate::random::Random;
use crate::relatives;
use crate::withdrawn;

/// How large a book may be.
#[derive(Clone, Copy, Debug, PartialEq, Eq)]
pub enum Size {
    /// A handful of everything: every choice can be tried.
    Tiny,
    /// Up to 8 rules.
    Small,
    /// Up to 16 rules.
    Middle,
    /// Anything that a book may hold.
    Large,
}

/// The largest number of each thing.
struct Bounds {
    users: usize,
    data: usize,
    columns: usize,
    functions: usize,
    rules: usize,
    operations: usize,
}

fn bounds(size: Size) -> Bounds {
    let [users, data, columns, functions, rules, operations] = match size {
        Size::Tiny => [4, 7, 6, 4, 4, 3],
        Size::Small => [8, 14, 16, 8, 8, 6],
        Size::Middle => [32, 40, 60, 20, 16, 10],
        Size::Large => [32, 64, 128, 64, 32, 15],
    };
    Bounds {
        users,
        data,
        columns,
        functions,
        rules,
        operations,
    }
}

/// A random draft of a sound book.
pub fn draft(random: &mut Random, size: Size) -> Draft {
    let bounds = bounds(size);
    let alphabet = alphabet(random, bounds.operations);
    let mut draft = Draft {
        users: hierarchy(random, bounds.users),
        data: data(random, bounds.data, &alphabet),
        ..Draft::default()
    };
    draft.withdrawn = withdrawn::some(random, &draft.data, &alphabet);
    draft.columns = columns(random, &draft, bounds.columns);
    draft.functions = functions(random, &alphabet, bounds.functions);
    draft.rules = rules(random, &draft, bounds.rules);
    draft
}

/// A number up to a bound, which itself comes often.
fn up_to(random: &mut Random, low: usize, high: usize) -> usize {
    match random.below(6) {
        0 => high,
        _ => random.between(low, high),
    }
}

/// The operations that a book speaks of.
fn alphabet(random: &mut Random, most: usize) -> Vec<u8> {
    let mut all: Vec<u8> = (1..=15).collect();
    random.shuffle(&mut all);
    let n = up_to(random, 0, most);
    all.truncate(n);
    all
}

/// The parents of a random hierarchy: flat, deep, in groups, or anyhow.
fn hierarchy(random: &mut Random, most: usize) -> Vec<u8> {
    let n = up_to(random, 1, most);
    let shape = random.below(4);
    let groups = random.between(1, 5);
    let parent = |random: &mut Random, i: usize| match shape {
        _ if i == 0 => 0,
        0 => 0,
        1 => i - 1 - random.below(i.min(3)),
        2 if i > groups => random.between(1, groups),
        2 => 0,
        _ => random.below(i),
    };
    (0..n).map(|i| parent(random, i) as u8).collect()
}

fn data(random: &mut Random, most: usize, alphabet: &[u8]) -> Vec<(u8, u16)> {
    let parents = hierarchy(random, most);
    let all: u16 = alphabet.iter().map(|&k| 1 << k).sum();
    let generous_root = random.chance(1, 2);
    let rarely = random.between(1, 4);
    let own = |random: &mut Random, i: usize| match i {
        0 if generous_root => all,
        0 => 0,
        _ if random.chance(1, rarely) => random.some_of(all),
        _ => 0,
    };
    let one = |(i, parent)| (parent, own(random, i));
    parents.into_iter().enumerate().map(one).collect()
}

/// Labels: any leaf, each leaf in turn, or none.
fn columns(random: &mut Random, draft: &Draft, most: usize) -> Vec<u8> {
    let leaves = leaves(&draft.parents());
    let n = up_to(random, 0, most);
    let in_turn = random.chance(1, 2);
    let label = |random: &mut Random, i: usize| match random.below(10) {
        0 => 255,
        _ if in_turn => leaves[i % leaves.len()],
        _ => random.one(&leaves),
    };
    (0..n).map(|i| label(random, i)).collect()
}

fn functions(random: &mut Random, alphabet: &[u8], most: usize) -> Vec<u8> {
    let n = up_to(random, 0, most);
    let function = |random: &mut Random| match random.below(12) {
        0 => 0,
        1 => random.below(16) as u8,
        _ => random.pick(alphabet).unwrap_or(0),
    };
    (0..n).map(|_| function(random)).collect()
}

/// Rules of their own, and relatives of rules before: so that many are idle, some only by two
/// others together, many have data that stay closed, by one rule or by several together, and some are
/// broken alone by raw data only late in the order. Where operations are withdrawn, some ask for these.
fn rules(random: &mut Random, draft: &Draft, most: usize) -> Vec<Rule> {
    let mut n = up_to(random, 0, most);
    let mut rules: Vec<Rule> = Vec::new();
    if random.chance(1, 3) {
        let whole = rule(random, draft);
        rules.extend(relatives::parts(random, draft, &whole));
        rules.push(whole);
    }
    if random.chance(1, 5) {
        let of = rule(random, draft);
        rules.extend(relatives::opposed(random, draft, &of));
        rules.push(of);
    }
    if random.chance(1, 5) {
        let of = rule(random, draft);
        rules.extend(relatives::closed_together(random, draft, &of));
        n = n.max(rules.len()).min(most);
    }
    if random.chance(1, 4) {
        let of = rule(random, draft);
        rules.extend(relatives::raw_stopped(random, draft, &of));
        // What belongs together stays together where there is room.
        n = n.max(rules.len()).min(most);
    }
    if draft.withdrawn.is_some() && random.chance(1, 2) {
        rules.extend(withdrawn::rules(random, draft));
        n = n.max(rules.len()).min(most);
    }
    fill(random, draft, &mut rules, n);
    random.shuffle(&mut rules);
    rules.truncate(n);
    rules
}

/// Adds rules of their own, and relatives of those before, until there are so many.
fn fill(random: &mut Random, draft: &Draft, rules: &mut Vec<Rule>, n: usize) {
    while rules.len() < n {
        if rules.is_empty() || random.chance(1, 2) {
            rules.push(rule(random, draft));
        } else {
            let of = rules[random.below(rules.len())].clone();
            rules.extend(relatives::some(random, draft, &of));
        }
    }
}

/// A rule of its own.
fn rule(random: &mut Random, draft: &Draft) -> Rule {
    let user = low_category(random, draft.users.len());
    let mut excluded = exclusions(random, &below(&draft.users, user), 4);
    if !covers_some(&draft.users, user, &excluded) && !random.chance(1, 20) {
        excluded.clear();
    }
    let references = references(random, draft);
    let m = match random.below(8) {
        0 => 0,
        1 => 8,
        _ => random.between(1, 3),
    };
    let mut restrictions: Vec<[u16; 3]> = (0..m)
        .map(|_| relatives::restriction(random, draft, &references))
        .collect();
    // A restriction without masks accepts everything, and the rule is idle for that alone.
    if !random.chance(1, 12) {
        restrictions.retain(|masks| *masks != [0; 3]);
    }
    Rule {
        user,
        excluded,
        references,
        restrictions,
    }
}

/// Is any leaf left under a category?
fn covers_some(parents: &[u8], category: u8, excluded: &[u8]) -> bool {
    let out = |leaf: u8| excluded.iter().any(|&x| under(parents, leaf, x));
    leaves(parents)
        .into_iter()
        .any(|leaf| under(parents, leaf, category) && !out(leaf))
}

/// Any category, but often a high one in the hierarchy, which covers more.
fn low_category(random: &mut Random, n: usize) -> u8 {
    let first = random.below(n);
    first.min(random.below(n)) as u8
}

/// Some categories out of several; one may come twice.
fn exclusions(random: &mut Random, of: &[u8], most: usize) -> Vec<u8> {
    let n = match random.below(16) {
        0 => most,
        1 | 2 => random.between(1, most),
        3..=7 => 1,
        _ => 0,
    };
    (0..n).filter_map(|_| random.pick(of)).collect()
}

/// One to three references that share no leaf.
fn references(random: &mut Random, draft: &Draft) -> Vec<Reference> {
    let wanted = random.between(1, 3);
    let mut references: Vec<Reference> = Vec::new();
    for _ in 0..30 {
        if references.len() == wanted {
            break;
        }
        let new = reference(random, draft, &references);
        let leaves = draft.leaves_of(&new);
        // A reference to leaves that no column has is sound, but one of many is enough.
        let useful = draft.columns.iter().any(|label| leaves.contains(label));
        let shared = |old: &Reference| !draft.leaves_of(old).is_disjoint(&leaves);
        if (useful || random.chance(1, 100)) && !references.iter().any(shared) {
            references.push(new);
        }
    }
    if references.is_empty() {
        references.push(reference(random, draft, &[]));
    }
    random.shuffle(&mut references);
    references
}

/// A reference that leaves out the earlier ones' categories where it can.
fn reference(random: &mut Random, draft: &Draft, earlier: &[Reference]) -> Reference {
    let parents = draft.parents();
    let category = match earlier {
        [] => random.below(parents.len()) as u8,
        _ => low_category(random, parents.len()),
    };
    let lower = below(&parents, category);
    let mut excluded = exclusions(random, &lower, 8);
    for old in earlier {
        if lower.contains(&old.category) {
            excluded.insert(0, old.category);
        }
    }
    excluded.truncate(8);
    Reference {
        category,
        action: random.one(&[PROJECTION, CONDITION, ACCESS, ACCESS]),
        excluded,
    }
}

#[cfg(test)]
mod tests {
    use super::*;

    /// How many books have a category of which something holds, by its number, its own mask and what it
    /// withdraws.
    fn count(of: &[&Draft], holds: impl Fn(usize, u16, u16) -> bool) -> usize {
        let each = of.iter().filter(|draft| {
            let own = draft.data.iter().map(|(_, own)| *own);
            let mut all = own.zip(draft.withdrawn.iter().flatten()).enumerate();
            all.any(|(i, (own, withdrawn))| holds(i, own, *withdrawn))
        });
        each.count()
    }

    #[test]
    fn a_third_of_the_books() {
        let mut random = Random::new(21);
        let drafts: Vec<Draft> = (0..1_200)
            .map(|_| draft(&mut random, Size::Small))
            .collect();
        let kind_6 = drafts.iter().filter(|draft| draft.withdrawn.is_some());
        let kind_6: Vec<&Draft> = kind_6.collect();
        assert!((300..500).contains(&kind_6.len()), "{}", kind_6.len());
        let something = count(&kind_6, |_, _, mask| mask != 0);
        let nothing = kind_6.len() - something;
        assert!(something > 200 && nothing > 40, "{something} {nothing}");
        assert!(count(&kind_6, |i, _, mask| i == 0 && mask != 0) > 20);
        assert_eq!(count(&kind_6, |_, own, mask| own & mask != 0), 0);
        assert_eq!(count(&kind_6, |_, _, mask| mask & 1 != 0), 0);
    }

    /// What a parent supports, and what it does not.
    #[test]
    fn what_is_withdrawn() {
        let mut random = Random::new(22);
        let [mut inherited, mut lacking, mut given_back] = [0; 3];
        for _ in 0..1_200 {
            let draft = draft(&mut random, Size::Small);
            for category in 1..draft.data.len() as u8 {
                let (parent, own) = draft.data[usize::from(category)];
                let above = draft.supported(parent);
                let mask = draft.withdrawn_by(category);
                inherited += u32::from(mask & above != 0);
                lacking += u32::from(mask & !above != 0);
                let gone = draft.withdrawn_by(parent) & !above;
                given_back += u32::from(gone & own != 0);
            }
        }
        assert!(inherited > 2 * lacking, "{inherited} {lacking}");
        assert!(lacking > 100 && given_back > 50, "{lacking} {given_back}");
    }

    /// A rule that asks for what a leaf lacks is in many of the books in which one lacks something.
    #[test]
    fn rules_about_it() {
        let mut random = Random::new(23);
        let [mut lacking, mut asking] = [0; 2];
        for _ in 0..1_200 {
            let draft = draft(&mut random, Size::Small);
            let lost = withdrawn::lost(&draft);
            let asks = |rule: &Rule| {
                let category = rule.references[0].category;
                let of = lost.iter().filter(|(above, _)| *above == category);
                let masks = rule.restrictions.iter().map(|masks| masks[0]);
                of.clone()
                    .any(|(_, lost)| masks.clone().any(|mask| mask & lost != 0))
            };
            lacking += u32::from(!lost.is_empty());
            asking += u32::from(draft.rules.iter().any(asks));
        }
        assert!(lacking > 150 && 2 * asking > lacking, "{lacking} {asking}");
    }
}
