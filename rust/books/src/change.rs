//! Sound books with one thing changed, aimed at a refusal.

use crate::change_withdrawn;
use crate::draft::{below, check_of, leaves, seal, seal_all, Draft, BLOCK};
use crate::random::Random;

/// A book with one change, aimed at refusal 1 to 9; it may be accepted all the same. Blocks are
/// sealed again where the change is not the check itself. What withdrawn operations brought has a generator
/// of its own, so that the other changes of a seed don't depend on it.
pub fn aimed(random: &mut Random, draft: &Draft, refusal: u32) -> Vec<u8> {
    let mut own = Random::new(random.clone().bits());
    let book = usual(random, draft, refusal);
    change_withdrawn::aimed(&mut own, draft, refusal).unwrap_or(book)
}

/// A book with one change of those that either kind of block 1 can have.
fn usual(random: &mut Random, draft: &Draft, refusal: u32) -> Vec<u8> {
    let mut book = draft.bytes();
    match refusal {
        1 => length(random, &mut book),
        2 => check(random, &mut book),
        3 => kind(random, &mut book),
        4 => count_or_unused(random, &mut book, draft),
        5 => parent_or_own(random, &mut book, draft),
        6 => label_or_function(random, &mut book, draft),
        _ => match random.pick(&rule_starts(draft)) {
            None => any_byte(random, &mut book),
            Some(start) => in_rule(random, &mut book, draft, start, refusal),
        },
    }
    book
}

/// Sets any byte to anything, and seals.
pub fn any_byte(random: &mut Random, book: &mut [u8]) {
    let block = random.below(book.len() / BLOCK);
    // Most fields stand in the first bytes.
    let byte = match random.below(3) {
        0 => random.below(510),
        1 => random.below(70),
        _ => random.below(12),
    };
    book[block * BLOCK + byte] = match random.below(2) {
        0 => random.byte(),
        _ => random.below(8) as u8,
    };
    seal_all(book);
}

/// The first byte of each rule's block.
fn rule_starts(draft: &Draft) -> Vec<usize> {
    (4..4 + draft.rules.len()).map(|i| i * BLOCK).collect()
}

fn length(random: &mut Random, book: &mut Vec<u8>) {
    let rule = book[book.len() - BLOCK..].to_vec();
    let length = match random.below(7) {
        0 => 0,
        1 => random.below(4) * BLOCK,
        2 => book.len() - 1,
        3 => book.len() + 1,
        4 => 37 * BLOCK,
        5 => 36 * BLOCK + 1,
        _ => random.below(20_000),
    };
    while book.len() < length {
        book.extend(&rule);
    }
    book.truncate(length);
}

fn check(random: &mut Random, book: &mut [u8]) {
    let start = random.below(book.len() / BLOCK) * BLOCK;
    let block = &mut book[start..start + BLOCK];
    match random.below(4) {
        0 => block[510 + random.below(2)] ^= 1 << random.below(8),
        1 => block[random.below(510)] ^= 1 << random.below(8),
        2 => block.swap(510, 511),
        _ => past_modulus(book),
    }
}

/// The check plus the modulus, in the first block where that fits two bytes: one of few bytes.
fn past_modulus(book: &mut [u8]) {
    let small = |block: &&mut [u8]| check_of(block) < 15;
    if let Some(block) = book.chunks_exact_mut(BLOCK).find(small) {
        let check = check_of(block) + 65_521;
        block[510..512].copy_from_slice(&check.to_be_bytes());
    }
}

fn kind(random: &mut Random, book: &mut [u8]) {
    let blocks = book.len() / BLOCK;
    let [one, two] = [random.below(blocks) * BLOCK, random.below(blocks) * BLOCK];
    match random.below(3) {
        0 => book[one] = random.below(8) as u8,
        1 => book[one] = random.byte(),
        _ => (0..BLOCK).for_each(|i| book.swap(one + i, two + i)),
    }
    seal_all(book);
}

fn count_or_unused(random: &mut Random, book: &mut [u8], draft: &Draft) {
    let block = random.below(book.len() / BLOCK);
    let start = block * BLOCK;
    if random.chance(1, 3) {
        let any = random.between(9, 509);
        let byte = random.one(&[any, any, 509, 4, 9, 12, 15, 31, 63, 64, 112]);
        book[start + byte] = random.between(1, 255) as u8;
    } else {
        let (byte, most) = count(random, draft, block);
        let now = book[start + byte];
        book[start + byte] = match random.below(5) {
            0 => 0,
            1 => most + 1,
            2 => 255,
            3 => now.wrapping_sub(1),
            _ => now.wrapping_add(1),
        };
    }
    seal_all(book);
}

/// A count's byte in a block, and its upper bound.
fn count(random: &mut Random, draft: &Draft, block: usize) -> (usize, u8) {
    match block {
        0 => (1, 32),
        1 => (1, 64),
        2 => (1, 128),
        3 => (1, 64),
        _ => {
            let references = draft.rules[block - 4].references.len();
            let reference = 16 + 16 * random.below(references);
            random.one(&[(1, 3), (3, 4), (8, 8), (reference + 2, 8)])
        }
    }
}

fn parent_or_own(random: &mut Random, book: &mut [u8], draft: &Draft) {
    let user = random.below(draft.users.len());
    let category = random.below(draft.data.len());
    let own = BLOCK + 2 + draft.width() * category;
    match random.below(6) {
        0 => book[2] = random.between(1, 255) as u8,
        1 => book[BLOCK + 2] = random.between(1, 255) as u8,
        2 => book[2 + user] = random.between(user, 255) as u8,
        3 => book[own] = random.between(category, 255) as u8,
        4 => book[own + 2] |= 1,
        _ => book[own + 1 + random.below(2)] = random.byte(),
    }
    seal_all(book);
}

fn label_or_function(random: &mut Random, book: &mut [u8], draft: &Draft) {
    let leaves = leaves(&draft.parents());
    let categories = draft.data.len() as u8;
    let inner: Vec<u8> = (0..categories).filter(|c| !leaves.contains(c)).collect();
    if !draft.columns.is_empty() && random.chance(2, 3) {
        let column = random.below(draft.columns.len());
        let any = random.byte();
        let inner = random.pick(&inner).unwrap_or(categories);
        book[2 * BLOCK + 2 + column] = random.one(&[inner, categories, any, 254, 255]);
    } else if !draft.functions.is_empty() {
        let function = random.below(draft.functions.len());
        book[3 * BLOCK + 2 + function] = random.one(&[15, 16, 17, 128, 255]);
    }
    seal_all(book);
}

/// Changes the rule whose block starts here, aimed at 7, 8 or 9.
fn in_rule(random: &mut Random, book: &mut [u8], draft: &Draft, start: usize, refusal: u32) {
    let rule = &mut book[start..start + BLOCK];
    match refusal {
        7 => rule_numbers(random, rule, draft),
        8 => share_leaf(random, rule),
        _ => mask(random, rule),
    }
    seal(rule);
}

fn rule_numbers(random: &mut Random, rule: &mut [u8], draft: &Draft) {
    let reference = 16 + 16 * random.below(usize::from(rule[1]));
    let any = random.byte();
    match random.below(7) {
        0 => rule[2] = random.one(&[draft.users.len() as u8, 255, any]),
        1 => rule[reference] = random.one(&[draft.data.len() as u8, 255, any]),
        2 => rule[reference + 1] = random.one(&[0, 4, 255]),
        3 | 4 => exclude(random, rule, 3, 4, &draft.users, rule[2]),
        _ => exclude(
            random,
            rule,
            reference + 2,
            8,
            &draft.parents(),
            rule[reference],
        ),
    }
}

/// Puts a number into an exclusion list: the category itself, one above or beside it, or none.
fn exclude(random: &mut Random, rule: &mut [u8], count: usize, most: u8, parents: &[u8], of: u8) {
    let n = parents.len() as u8;
    let lower = below(parents, of);
    let beside: Vec<u8> = (0..n).filter(|c| !lower.contains(c)).collect();
    if rule[count] < most {
        rule[count] += 1;
    }
    let place = count + 1 + random.below(usize::from(rule[count]));
    let any = random.byte();
    let beside = random.one(&beside);
    rule[place] = random.one(&[of, beside, n, any]);
}

fn share_leaf(random: &mut Random, rule: &mut [u8]) {
    let n = usize::from(rule[1]);
    let from = random.below(n);
    let to = match n {
        3 => (from + random.between(1, 2)) % 3,
        _ => n,
    };
    rule[1] = rule[1].max(to as u8 + 1);
    rule.copy_within(16 + 16 * from..32 + 16 * from, 16 + 16 * to);
    // Without its exclusions the copy may still share a leaf, or be the first to.
    if random.chance(1, 3) {
        rule[16 + 16 * to + 2..32 + 16 * to].fill(0);
    }
}

fn mask(random: &mut Random, rule: &mut [u8]) {
    if rule[8] == 0 {
        rule[8] = 1;
    }
    let restriction = 64 + 6 * random.below(usize::from(rule[8]));
    let byte = restriction + random.below(6);
    match random.below(4) {
        0 => rule[restriction + 1 + 2 * random.below(3)] |= 1,
        1 => rule[restriction + 5] |= 1 << random.below(8),
        2 => rule[byte] = random.byte(),
        _ => rule[byte] |= 1 << random.below(8),
    }
}
