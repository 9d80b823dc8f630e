//! Sound books with one thing changed that withdrawn operations brought (document 02, N9), aimed at
//! refusal 3, 4, 5 or 9.

use crate::draft::{below, seal_all, Draft, BLOCK};
use crate::random::Random;

/// Some of the books that are aimed at a refusal, with such a change instead of another. A book with a block
/// 1 of kind 6 often has one whatever it is aimed at.
pub fn aimed(random: &mut Random, draft: &Draft, refusal: u32) -> Option<Vec<u8>> {
    let instead = match draft.withdrawn {
        Some(_) => random.chance(1, 2),
        None => refusal == 3 && random.chance(1, 2),
    };
    if !instead {
        return None;
    }
    any(random, draft)
}

/// A book with any such change. There is none where no rule could name what is withdrawn.
pub fn any(random: &mut Random, draft: &Draft) -> Option<Vec<u8>> {
    let mut book = draft.bytes();
    let refusals: &[u32] = match draft.withdrawn {
        Some(_) => &[3, 4, 5, 5, 9, 9],
        None => &[3, 3, 4],
    };
    match random.one(refusals) {
        3 => kind(random, &mut book),
        4 => count_or_unused(random, &mut book, draft),
        5 => parent_or_masks(random, &mut book, draft),
        _ => mask_of_another(random, &mut book, draft)?,
    }
    seal_all(&mut book);
    Some(book)
}

/// Kind 6 in another block, or another kind in block 1, 2 for 6 and 6 for 2 among them: then its fields are
/// read by another width.
fn kind(random: &mut Random, book: &mut [u8]) {
    let any = random.between(2, book.len() / BLOCK - 1);
    let other = random.one(&[0, 2, 3, any, any]);
    match random.below(4) {
        0 => book[BLOCK] = random.one(&[0, 1, 3, 4, 5, 7, 8, 255]),
        1 => book[BLOCK] = 8 - book[BLOCK],
        _ => book[other * BLOCK] = 6,
    }
}

/// A byte after the last category, or the count; sometimes with a wrong parent, which comes after both.
fn count_or_unused(random: &mut Random, book: &mut [u8], draft: &Draft) {
    let block = &mut book[BLOCK..2 * BLOCK];
    let count = block[1];
    let unused = 2 + draft.width() * draft.data.len();
    let any = random.between(unused, 509);
    let near = unused + random.below(2 * draft.data.len());
    match random.below(6) {
        0 => block[unused] = random.between(1, 255) as u8,
        1 => block[near] = random.between(1, 255) as u8,
        2 => block[any] = random.between(1, 255) as u8,
        3 => block[509] = 1,
        4 => block[1] = random.one(&[0, 65, 101, 255]),
        _ => block[1] = random.one(&[count - 1, count + 1]),
    }
    if random.chance(1, 4) {
        block[2] = 1;
    }
}

/// The parent of a category, or its masks: an operation in both, or bit 0 in one or both.
fn parent_or_masks(random: &mut Random, book: &mut [u8], draft: &Draft) {
    let category = random.below(draft.data.len());
    let start = BLOCK + 2 + draft.width() * category;
    let fields = &mut book[start..start + 5];
    let bit = random.between(1, 15);
    // The byte that a bit stands in, of the own mask, and the bit there.
    let (byte, bit) = (2 - bit / 8, 1 << (bit % 8));
    match random.below(8) {
        0 => fields[0] = random.between(category.max(1), 255) as u8,
        1 => fields[0] = category.max(1) as u8,
        2 => fields[2] |= 1,
        3 => fields[4] |= 1,
        4 => (fields[2], fields[4]) = (fields[2] | 1, fields[4] | 1),
        5 => fields[1 + random.below(4)] = random.byte(),
        _ => (fields[byte], fields[byte + 2]) = (fields[byte] | bit, fields[byte + 2] | bit),
    }
}

/// A rule's mask names an operation that its category would support if nothing were withdrawn, or that a
/// category below supports. There is none where no rule refers to such a category.
fn mask_of_another(random: &mut Random, book: &mut [u8], draft: &Draft) -> Option<()> {
    let parents = draft.parents();
    let others = |category: u8| {
        let lower = below(&parents, category).into_iter();
        let lower = lower.fold(0, |all, category| all | draft.supported(category));
        (draft.owned_above(category) | lower) & !draft.supported(category)
    };
    let mut masks = Vec::new();
    for (i, rule) in draft.rules.iter().enumerate() {
        for (place, reference) in rule.references.iter().enumerate() {
            let others = others(reference.category);
            let all = (1..16).filter(|k| others >> k & 1 == 1);
            masks.extend(all.map(|k| (i, place, 1u16 << k)));
        }
    }
    let (rule, place, bit) = random.pick(&masks)?;
    let start = (4 + rule) * BLOCK;
    let block = &mut book[start..start + BLOCK];
    block[8] = block[8].max(1);
    let mask = 64 + 6 * random.below(usize::from(block[8])) + 2 * place;
    let [high, low] = bit.to_be_bytes();
    (block[mask], block[mask + 1]) = (block[mask] | high, block[mask + 1] | low);
    Some(())
}
