//! Rules made from a rule: equal to it, stronger, weaker, several that cover it together, several
//! that can't all be kept with it or with each other, or some that stop a part of its data where they
//! are raw.

use crate::draft::{below, leaves, under, Draft, Reference, Rule, ACCESS, CONDITION, PROJECTION};
use crate::random::Random;

/// One or more relatives of a rule, all sound where the rule is.
pub fn some(random: &mut Random, draft: &Draft, rule: &Rule) -> Vec<Rule> {
    match random.below(12) {
        0 => vec![rule.clone()],
        1 => vec![reordered(random, rule)],
        2 => vec![stricter(random, rule)],
        3 => vec![looser(random, draft, rule)],
        4 => vec![narrower(random, draft, rule)],
        5 => vec![fewer_references(random, rule)],
        6 => opposed(random, draft, rule),
        _ => parts(random, draft, rule),
    }
}

/// Weaker rules that often cover the rule together.
pub fn parts(random: &mut Random, draft: &Draft, rule: &Rule) -> Vec<Rule> {
    match random.below(6) {
        0 => by_action(random, rule),
        1 => by_child(random, draft, rule),
        2 => by_user(draft, rule),
        3 | 4 => by_mask(random, draft, rule),
        _ => by_exclusion(random, draft, rule),
    }
}

/// The references in another order, the masks with them.
fn reordered(random: &mut Random, rule: &Rule) -> Rule {
    let mut order: Vec<usize> = (0..rule.references.len()).collect();
    random.shuffle(&mut order);
    keep(rule, &order)
}

/// The rule with some of its references, in this order.
fn keep(rule: &Rule, order: &[usize]) -> Rule {
    let references = order.iter().map(|&i| rule.references[i].clone());
    let masks = |old: &[u16; 3]| {
        let mut new = [0; 3];
        order
            .iter()
            .enumerate()
            .for_each(|(to, &from)| new[to] = old[from]);
        new
    };
    Rule {
        references: references.collect(),
        restrictions: rule.restrictions.iter().map(masks).collect(),
        ..rule.clone()
    }
}

fn stricter(random: &mut Random, rule: &Rule) -> Rule {
    let mut new = rule.clone();
    if !new.restrictions.is_empty() {
        new.restrictions
            .remove(random.below(rule.restrictions.len()));
    }
    new
}

fn looser(random: &mut Random, draft: &Draft, rule: &Rule) -> Rule {
    let mut new = rule.clone();
    if new.restrictions.len() < 8 {
        let restriction = restriction(random, draft, &rule.references);
        new.restrictions.push(restriction);
    }
    new
}

/// A reference goes down to a lower category.
fn narrower(random: &mut Random, draft: &Draft, rule: &Rule) -> Rule {
    let place = random.below(rule.references.len());
    let lower = below(&draft.parents(), rule.references[place].category);
    match random.pick(&lower) {
        Some(category) => with_category(draft, rule, place, category),
        None => rule.clone(),
    }
}

/// A reference goes to a category below, with those of its exclusions that are still below, and its masks
/// with those operations that are not withdrawn there.
fn with_category(draft: &Draft, rule: &Rule, place: usize, category: u8) -> Rule {
    let mut new = rule.clone();
    let lower = below(&draft.parents(), category);
    let leaves = draft.leaves_of(&rule.references[place]);
    let reference = &mut new.references[place];
    reference.category = category;
    reference.excluded.retain(|x| lower.contains(x));
    // A category inside an exclusion would bring back leaves that the rule left out.
    let sound = draft.leaves_of(reference).is_subset(&leaves);
    if sound {
        supported_alone(draft, new, place)
    } else {
        rule.clone()
    }
}

/// The rule whose masks for a reference name only operations that its category supports. Where none is
/// left, the restriction goes, as an empty mask would accept everything.
fn supported_alone(draft: &Draft, mut rule: Rule, place: usize) -> Rule {
    let supported = draft.supported(rule.references[place].category);
    rule.restrictions.retain_mut(|masks| {
        let asked = masks[place] != 0;
        masks[place] &= supported;
        masks[place] != 0 || !asked
    });
    rule
}

fn fewer_references(random: &mut Random, rule: &Rule) -> Rule {
    let place = random.below(rule.references.len());
    keep(rule, &[place])
}

fn by_action(random: &mut Random, rule: &Rule) -> Vec<Rule> {
    let place = random.below(rule.references.len());
    let with = |action: u8| {
        let mut new = rule.clone();
        new.references[place].action = action;
        new
    };
    vec![with(PROJECTION), with(CONDITION)]
}

/// One rule for each child of a reference's category.
fn by_child(random: &mut Random, draft: &Draft, rule: &Rule) -> Vec<Rule> {
    let place = random.below(rule.references.len());
    let category = rule.references[place].category;
    children(&draft.parents(), category)
        .into_iter()
        .map(|child| with_category(draft, rule, place, child))
        .collect()
}

fn children(parents: &[u8], category: u8) -> Vec<u8> {
    (1..parents.len() as u8)
        .filter(|&c| parents[usize::from(c)] == category)
        .collect()
}

/// One rule for each child of the user category.
fn by_user(draft: &Draft, rule: &Rule) -> Vec<Rule> {
    children(&draft.users, rule.user)
        .into_iter()
        .map(|user| Rule {
            user,
            excluded: vec![],
            ..rule.clone()
        })
        .collect()
}

/// Two rules that allow one operation more each, not the same one.
fn by_mask(random: &mut Random, draft: &Draft, rule: &Rule) -> Vec<Rule> {
    let place = random.below(rule.references.len());
    let supported = draft.supported(rule.references[place].category);
    let parts = random.some_of(supported);
    let with = |more: u16| {
        let mut new = rule.clone();
        for masks in &mut new.restrictions {
            if masks[place] != 0 {
                masks[place] |= more;
            }
        }
        new
    };
    vec![with(parts), with(supported & !parts)]
}

/// Rules that can't all be kept with the rule, for all of its data or for a part.
pub fn opposed(random: &mut Random, draft: &Draft, rule: &Rule) -> Vec<Rule> {
    match random.below(4) {
        0 => patches(random, draft, rule),
        1 => {
            let part = narrower(random, draft, rule);
            deal_out(random, draft, &part)
        }
        _ => deal_out(random, draft, rule),
    }
}

/// Rules that each forbid one leaf of a reference under one action.
fn patches(random: &mut Random, draft: &Draft, rule: &Rule) -> Vec<Rule> {
    let place = random.below(rule.references.len());
    let leaves: Vec<u8> = draft
        .leaves_of(&rule.references[place])
        .into_iter()
        .collect();
    let patch = |leaf: u8, action: u8| Rule {
        references: vec![Reference {
            category: leaf,
            action,
            excluded: vec![],
        }],
        restrictions: vec![],
        ..rule.clone()
    };
    let mut rules = Vec::new();
    for _ in 0..random.between(1, 3) {
        let leaf = random.pick(&leaves);
        let action = random.one(&[PROJECTION, CONDITION]);
        rules.extend(leaf.map(|leaf| patch(leaf, action)));
    }
    rules
}

/// Two or three rules that can't be kept together, though any fewer of them often can: what a reference
/// supports is dealt out in shares, and each rule takes all but one share.
fn deal_out(random: &mut Random, draft: &Draft, rule: &Rule) -> Vec<Rule> {
    let place = random.below(rule.references.len());
    let supported = draft.supported(rule.references[place].category);
    let count = random.between(2, 3);
    let shares = dealt(random, supported, count);
    let (of, place) = match random.below(2) {
        0 => (keep(rule, &[place]), 0),
        _ => (rule.clone(), place),
    };
    let without = |share: u16| asking(&of, place, supported & !share);
    shares.into_iter().map(without).collect()
}

/// The operations of a mask, dealt out in so many shares, in turn.
fn dealt(random: &mut Random, operations: u16, count: usize) -> Vec<u16> {
    let mut each: Vec<u16> = (1..16).filter(|k| operations >> k & 1 == 1).collect();
    random.shuffle(&mut each);
    let mut shares = vec![0; count];
    for (k, i) in each.into_iter().zip((0..count).cycle()) {
        shares[i] |= 1 << k;
    }
    shares
}

/// The rule with one restriction, which asks for these operations of one reference.
fn asking(rule: &Rule, place: usize, operations: u16) -> Rule {
    let mut masks = [0; 3];
    masks[place] = operations;
    Rule {
        restrictions: vec![masks],
        ..rule.clone()
    }
}

/// Up to four rules that close the rule's data together and, where no leaf has an operation withdrawn, not
/// without one of them, and the rule made to take all that they take: what can be had of a reference is
/// dealt out in shares, and each takes all but one share. Where nothing can be had of it, or it supports one
/// operation only, there are none. There may be a twin, so that either would do, or rules for some users in
/// place of one.
pub fn closed_together(random: &mut Random, draft: &Draft, rule: &Rule) -> Vec<Rule> {
    let supported = |place: &usize| draft.supported(rule.references[*place].category);
    let had = had(draft);
    let places = 0..rule.references.len();
    let place = places.max_by_key(|place| (supported(place) & had).count_ones());
    let place = place.expect("a rule has a reference");
    let supported = supported(&place);
    let count = random.between(2, 4);
    let mut shares = dealt(random, supported & had, count);
    // An empty share is no reason to need its rule, and a mask of none would ask for nothing.
    shares.retain(|&share| share != 0 && share != supported);
    let without = |share: u16| asking(rule, place, supported & !share);
    let mut rules: Vec<Rule> = shares.into_iter().map(without).collect();
    if let Some(one) = rules.pop() {
        match random.below(3) {
            0 => rules.extend([one.clone(), one]),
            1 => rules.extend(by_user(draft, &one)),
            _ => rules.push(one),
        }
    }
    rules.push(asking(rule, place, supported));
    rules
}

/// The rule with few restrictions and any action, and rules that stop some of its data where they
/// are raw, mostly what comes first in order. A choice that breaks it alone has functions there,
/// and needs none where data stay raw.
pub fn raw_stopped(random: &mut Random, draft: &Draft, rule: &Rule) -> Vec<Rule> {
    let mut wide = rule.clone();
    wide.restrictions.truncate(random.below(2));
    wide.references.iter_mut().for_each(|of| of.action = ACCESS);
    let mut rules = Vec::new();
    for place in 0..wide.references.len() {
        let part = early_part(random, draft, &keep(&wide, &[place]));
        if random.chance(3, 4) {
            rules.push(some_applied(draft, &part));
        }
    }
    if wide.references.len() > 1 && random.chance(1, 2) {
        let mut two: Vec<usize> = (0..wide.references.len()).collect();
        random.shuffle(&mut two);
        rules.push(some_applied(draft, &keep(&wide, &two[..2])));
    }
    // Where no operation can be had, such a rule forbids.
    rules.retain(|rule| !rule.restrictions.is_empty());
    rules.push(wide);
    rules
}

/// The rule with restrictions that accept when any operation is applied to one of its data.
fn some_applied(draft: &Draft, rule: &Rule) -> Rule {
    let had = had(draft);
    let applied = |place: usize| {
        let mut masks = [0; 3];
        masks[place] = draft.supported(rule.references[place].category) & had;
        masks
    };
    let each = (0..rule.references.len()).map(applied);
    Rule {
        restrictions: each.filter(|masks| *masks != [0; 3]).collect(),
        ..rule.clone()
    }
}

/// The operations that functions have.
fn had(draft: &Draft) -> u16 {
    let belongs = |k: &u16| draft.functions.contains(&(*k as u8));
    (1..16).filter(belongs).map(|k| 1 << k).sum()
}

/// The rule of one reference with its lowest leaf, without its highest, with projections or with
/// some users alone.
fn early_part(random: &mut Random, draft: &Draft, rule: &Rule) -> Rule {
    let mut part = rule.clone();
    let of = &mut part.references[0];
    let mut carried = draft.leaves_of(of);
    carried.retain(|leaf| draft.columns.contains(leaf));
    match (random.below(5), carried.first(), carried.last()) {
        (0, Some(&low), Some(&high)) if low < high => {
            of.category = low;
            of.excluded.clear();
        }
        (1, Some(&low), Some(&high)) if low < high && of.excluded.len() < 8 => {
            of.excluded.push(high);
        }
        (2, ..) => {
            let mut users = leaves(&draft.users).into_iter();
            let low = users.find(|&user| under(&draft.users, user, rule.user));
            part.user = low.unwrap_or(rule.user);
            part.excluded.clear();
        }
        _ => of.action = PROJECTION,
    }
    part
}

/// One rule without a lower category, one with it alone.
fn by_exclusion(random: &mut Random, draft: &Draft, rule: &Rule) -> Vec<Rule> {
    let place = random.below(rule.references.len());
    let old: &Reference = &rule.references[place];
    let lower = below(&draft.parents(), old.category);
    let Some(out) = random.pick(&lower).filter(|_| old.excluded.len() < 8) else {
        return vec![rule.clone()];
    };
    let mut without = rule.clone();
    without.references[place].excluded.push(out);
    vec![without, with_category(draft, rule, place, out)]
}

/// Masks of supported operations, many of them zero.
pub fn restriction(random: &mut Random, draft: &Draft, references: &[Reference]) -> [u16; 3] {
    let mut masks = [0; 3];
    for (mask, reference) in masks.iter_mut().zip(references) {
        if random.chance(3, 5) {
            *mask = random.some_of(draft.supported(reference.category));
        }
    }
    masks
}
