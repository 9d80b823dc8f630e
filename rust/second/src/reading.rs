//! The book check: bytes to an accepted book, or the first refusal.

use crate::block::{self, SIZE};
use crate::book::Book;
use crate::hierarchy::Hierarchy;
use crate::operation::{self, Masks, Operation};
use crate::refusal::*;
use crate::rule::{Reference, Restriction, Rule, RuleAction};
use std::collections::BTreeSet;
use std::ops::{Range, RangeInclusive};

/// A refusal number, or what a block says. The caller adds the place: "The place is the block."
type Read<T> = Result<T, u32>;

/// "Byte 0 of a block is its kind, byte 1 a count."
const HEAD: Range<usize> = 0..2;

/// The kind of a block 1 that has withdrawn masks.
const WITH_WITHDRAWN: u8 = 6;

/// "Otherwise accepted, with the number of rules": here with all that the book says.
pub fn read(bytes: &[u8]) -> Result<Book, Refusal> {
    let blocks = split(bytes)?;
    lowest(&blocks, WRONG_CHECK, |_, b| {
        block::sum(b) == block::stored(b)
    })?;
    lowest(&blocks, WRONG_KIND, |i, b| kinds(i).contains(&b[0]))?;
    let place = |i: usize| move |number: u32| Refusal::at(number, i);
    let users = users(blocks[0]).map_err(place(0))?;
    let (data, masks) = data(blocks[1]).map_err(place(1))?;
    let columns = columns(blocks[2], &data).map_err(place(2))?;
    let functions = functions(blocks[3]).map_err(place(3))?;
    let supported = (0..masks.len()).map(|c| operation::supported(&data, &masks, c));
    let mut book = Book {
        users,
        supported: supported.collect(),
        data,
        columns,
        functions,
        rules: Vec::new(),
    };
    for (i, block) in blocks.iter().enumerate().skip(4) {
        let rule = rule(block, &book).map_err(place(i))?;
        book.rules.push(rule);
    }
    Ok(book)
}

/// "1: length not 512 times 4 to 36, place 0."
fn split(bytes: &[u8]) -> Result<Vec<&[u8]>, Refusal> {
    let blocks: Vec<&[u8]> = bytes.chunks(SIZE).collect();
    let whole = blocks.iter().all(|block| block.len() == SIZE);
    if whole && (4..=36).contains(&blocks.len()) {
        Ok(blocks)
    } else {
        Err(Refusal::of(BOOK_LENGTH))
    }
}

/// Refuses the lowest block that fails a test.
fn lowest(
    blocks: &[&[u8]],
    number: u32,
    test: impl Fn(usize, &[u8]) -> bool,
) -> Result<(), Refusal> {
    match (0..blocks.len()).find(|&i| !test(i, blocks[i])) {
        Some(i) => Err(Refusal::at(number, i)),
        None => Ok(()),
    }
}

/// "Block 0, kind 1", "Block 1, kind 2", "Block 2, kind 3", "Block 3, kind 4", "Further blocks,
/// kind 5"; and document 02, N9: "A block of kind 6 may stand where kind 2 stood".
fn kinds(block: usize) -> &'static [u8] {
    match block {
        0 => &[1],
        1 => &[2, WITH_WITHDRAWN],
        2 => &[3],
        3 => &[4],
        _ => &[5],
    }
}

/// Refuses with a number unless the law holds.
fn demand(law: bool, number: u32) -> Read<()> {
    if law {
        Ok(())
    } else {
        Err(number)
    }
}

/// Reads a count: "4, a count outside its bounds (too low or too high)".
fn count(block: &[u8], byte: usize, bounds: RangeInclusive<usize>) -> Read<usize> {
    let n = usize::from(block[byte]);
    demand(bounds.contains(&n), COUNT_OR_ZERO)?;
    Ok(n)
}

/// The byte as a number of a category, row or the like.
fn number(bytes: &[u8], byte: usize) -> usize {
    usize::from(bytes[byte])
}

/// "Block 0, kind 1, users: 1 to 32 categories. Byte 2 + i is the parent of category i"
fn users(block: &[u8]) -> Read<Hierarchy> {
    let n = count(block, 1, 1..=32)?;
    demand(block::rest_is_zero(block, &[HEAD, 2..2 + n]), COUNT_OR_ZERO)?;
    let parents = (0..n).map(|i| number(block, 2 + i)).collect();
    Hierarchy::new(parents).ok_or(PARENT_OR_OWN)
}

/// "Block 1, kind 2, data: 1 to 64 categories, three bytes each from byte 2: parent (same law),
/// then the mask of own operations. Operations are 1 to 15; 0 means none, and bit 0 is clear." Or
/// document 02, N9: "with five bytes a category: parent, own mask, withdrawn mask".
fn data(block: &[u8]) -> Read<(Hierarchy, Vec<Masks>)> {
    let n = count(block, 1, 1..=64)?;
    let width = match block[0] {
        WITH_WITHDRAWN => 5,
        _ => 3,
    };
    let fields = 2..2 + width * n;
    demand(
        block::rest_is_zero(block, &[HEAD, fields.clone()]),
        COUNT_OR_ZERO,
    )?;
    let categories = || block[fields.clone()].chunks(width);
    let parents = categories().map(|bytes| number(bytes, 0)).collect();
    let data = Hierarchy::new(parents).ok_or(PARENT_OR_OWN)?;
    let masks: Vec<Masks> = categories().map(masks).collect();
    demand(masks.iter().all(Masks::are_lawful), PARENT_OR_OWN)?;
    Ok((data, masks))
}

/// The masks of a category by its bytes, after the parent. "Kind 2 reads as nothing withdrawn."
fn masks(category: &[u8]) -> Masks {
    let withdrawn = match category.len() {
        5 => mask(category, 3),
        _ => BTreeSet::new(),
    };
    Masks {
        own: mask(category, 1),
        withdrawn,
    }
}

/// The operations of the mask at a byte and the next.
fn mask(bytes: &[u8], byte: usize) -> BTreeSet<Operation> {
    operation::of_mask(bytes[byte], bytes[byte + 1])
}

/// "Block 2, kind 3, columns: 0 to 128. Byte 2 + i is the label of column i: a data leaf, or 255
/// for unlabelled."
fn columns(block: &[u8], data: &Hierarchy) -> Read<Vec<Option<usize>>> {
    let n = count(block, 1, 0..=128)?;
    demand(block::rest_is_zero(block, &[HEAD, 2..2 + n]), COUNT_OR_ZERO)?;
    (0..n)
        .map(|i| match number(block, 2 + i) {
            255 => Ok(None),
            label if data.is_leaf(label) => Ok(Some(label)),
            _ => Err(LABEL_OR_FUNCTION),
        })
        .collect()
}

/// "Block 3, kind 4, functions: 0 to 64. Byte 2 + i is the operation 0 to 15 of function i."
fn functions(block: &[u8]) -> Read<Vec<Operation>> {
    let n = count(block, 1, 0..=64)?;
    demand(block::rest_is_zero(block, &[HEAD, 2..2 + n]), COUNT_OR_ZERO)?;
    let functions = block[2..2 + n].to_vec();
    demand(functions.iter().all(|&o| o <= 15), LABEL_OR_FUNCTION)?;
    Ok(functions)
}

/// A rule block, its laws in the order 4, 7, 8, 9.
fn rule(block: &[u8], book: &Book) -> Read<Rule> {
    let fields = rule_fields(block)?;
    demand(block::rest_is_zero(block, &fields), COUNT_OR_ZERO)?;
    let users = covered(&book.users, number(block, 2), list(block, 3)).ok_or(RULE_NUMBERS)?;
    let references: Option<Vec<Reference>> = (0..number(block, 1))
        .map(|i| reference(block, 16 + 16 * i, &book.data))
        .collect();
    let references = references.ok_or(RULE_NUMBERS)?;
    demand(no_shared_leaf(&references), SHARED_LEAF)?;
    let restrictions: Vec<Restriction> = (0..number(block, 8))
        .map(|j| restriction(block, 64 + 6 * j))
        .collect();
    for restriction in &restrictions {
        demand(masks_are_sound(restriction, block, book), MASK)?;
    }
    Ok(Rule {
        users,
        references,
        restrictions,
    })
}

/// The fields of a rule block, once its counts are in bounds. "Byte 1: references n, 1 to 3. Byte
/// 2: user category. Byte 3: excluded users, 0 to 4, listed from byte 4. Byte 8: restrictions m, 0
/// to 8". The masks of an absent reference are fields too: 9 speaks of them.
fn rule_fields(block: &[u8]) -> Read<Vec<Range<usize>>> {
    let references = count(block, 1, 1..=3)?;
    let excluded = count(block, 3, 0..=4)?;
    let restrictions = count(block, 8, 0..=8)?;
    let head = [0..4 + excluded, 8..9];
    let masks = 64..64 + 6 * restrictions;
    let mut fields = Vec::from(head);
    fields.push(masks);
    for i in 0..references {
        let start = 16 + 16 * i;
        let excluded = count(block, start + 2, 0..=8)?;
        fields.push(start..start + 3 + excluded);
    }
    Ok(fields)
}

/// The list after a count byte.
fn list(block: &[u8], count: usize) -> Vec<usize> {
    (0..number(block, count))
        .map(|i| number(block, count + 1 + i))
        .collect()
}

/// The covered leaves, if the category is there and "An excluded category is a proper descendant of
/// the one referred to."
fn covered(all: &Hierarchy, category: usize, excluded: Vec<usize>) -> Option<BTreeSet<usize>> {
    let proper = excluded
        .iter()
        .all(|&out| all.properly_below(out, category));
    (all.has(category) && proper).then(|| all.covered_leaves(category, &excluded))
}

/// "Reference i starts at 16 + 16 × i: data category, action (1 projection, 2 condition, 3 access,
/// meaning either), excluded categories 0 to 8, then their list."
fn reference(block: &[u8], start: usize, data: &Hierarchy) -> Option<Reference> {
    let leaves = covered(data, number(block, start), list(block, start + 2))?;
    let action = RuleAction::of(block[start + 1])?;
    Some(Reference { action, leaves })
}

/// "The leaf sets of a rule's references share no leaf; an empty set is allowed."
fn no_shared_leaf(references: &[Reference]) -> bool {
    let pairs = |i: usize| (0..i).map(move |j| (i, j));
    (0..references.len())
        .flat_map(pairs)
        .all(|(i, j)| references[i].leaves.is_disjoint(&references[j].leaves))
}

/// "Restriction j starts at 64 + 6 × j: three masks, for references 0, 1, 2"
fn restriction(block: &[u8], start: usize) -> Restriction {
    let masks = (0..3).map(|i| mask(block, start + 2 * i)).collect();
    Restriction { masks }
}

/// "A mask names only operations that the referred category supports." None is named for an absent
/// reference, and operation 0 is never supported.
fn masks_are_sound(restriction: &Restriction, block: &[u8], book: &Book) -> bool {
    let absent = BTreeSet::new();
    (0..3).all(|i| {
        let present = i < number(block, 1);
        let category = number(block, 16 + 16 * i);
        let named = if present {
            &book.supported[category]
        } else {
            &absent
        };
        restriction.masks[i].is_subset(named)
    })
}
