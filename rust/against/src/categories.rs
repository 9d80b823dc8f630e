//! The data categories of a book by the bytes of its block 1, of either kind (document 02, N9).

use books::draft::{seal, BLOCK};

/// The kind of a block 1 without withdrawn masks.
pub const WITHOUT_WITHDRAWN: u8 = 2;
/// The kind of a block 1 with them.
pub const WITH_WITHDRAWN: u8 = 6;

/// All operations, 1 to 15.
pub const ALL: u16 = 0xFFFE;

/// A data category.
#[derive(Clone, Copy, Debug, Default, PartialEq, Eq)]
pub struct Category {
    /// Its parent.
    pub parent: u8,
    /// The mask of its own operations.
    pub own: u16,
    /// The mask of those that it withdraws.
    pub withdrawn: u16,
}

impl Category {
    /// Has neither mask bit 0, and is no operation in both?
    pub fn has_lawful_masks(&self) -> bool {
        (self.own | self.withdrawn) & 1 == 0 && self.own & self.withdrawn == 0
    }
}

/// The kind of block 1, if there is such a block.
pub fn kind(book: &[u8]) -> Option<u8> {
    book.get(BLOCK).copied()
}

/// Has the book a block 1 with withdrawn masks?
pub fn has_withdrawn(book: &[u8]) -> bool {
    kind(book) == Some(WITH_WITHDRAWN)
}

fn width(kind: u8) -> Option<usize> {
    match kind {
        WITHOUT_WITHDRAWN => Some(3),
        WITH_WITHDRAWN => Some(5),
        _ => None,
    }
}

/// The categories, where the kind is one of the two and the count is in its bounds.
pub fn read(book: &[u8]) -> Option<Vec<Category>> {
    let block = book.get(BLOCK..2 * BLOCK)?;
    let width = width(block[0])?;
    let count = usize::from(block[1]);
    let category = |bytes: &[u8]| Category {
        parent: bytes[0],
        own: u16::from_be_bytes([bytes[1], bytes[2]]),
        withdrawn: match bytes[3..] {
            [high, low] => u16::from_be_bytes([high, low]),
            _ => 0,
        },
    };
    let bytes = block[2..2 + width * count.min(64)].chunks(width);
    let in_bounds = (1..=64).contains(&count);
    in_bounds.then(|| bytes.map(category).collect())
}

/// The same book with these categories in a block 1 of this kind, sealed. Kind 2 has no place for what is
/// withdrawn.
pub fn write(book: &[u8], kind: u8, categories: &[Category]) -> Vec<u8> {
    let mut book = book.to_vec();
    let block = &mut book[BLOCK..2 * BLOCK];
    block.fill(0);
    (block[0], block[1]) = (kind, categories.len() as u8);
    let width = width(kind).unwrap_or(3);
    for (bytes, of) in block[2..].chunks_mut(width).zip(categories) {
        let fields = [
            &[of.parent][..],
            &of.own.to_be_bytes(),
            &of.withdrawn.to_be_bytes(),
        ];
        bytes.copy_from_slice(&fields.concat()[..width]);
    }
    seal(block);
    book
}

/// Is each parent below its category, and 0 for the root?
pub fn parents_are_lower(categories: &[Category]) -> bool {
    let mut all = categories.iter().enumerate();
    all.all(|(i, category)| usize::from(category.parent) < i.max(1))
}

/// What each category inherits: what its parent supports, and nothing for the root. None where a parent is not
/// lower.
pub fn inherited(categories: &[Category]) -> Option<Vec<u16>> {
    if !parents_are_lower(categories) {
        return None;
    }
    let mut inherited = Vec::new();
    let mut supported: Vec<u16> = Vec::new();
    for (i, of) in categories.iter().enumerate() {
        let above = match i {
            0 => 0,
            _ => supported[usize::from(of.parent)],
        };
        inherited.push(above);
        supported.push(above & !of.withdrawn | of.own);
    }
    Some(inherited)
}

/// The same book with nothing withdrawn, where something is.
pub fn cleared(book: &[u8]) -> Option<Vec<u8>> {
    let mut categories = read(book)?;
    let some = categories.iter().any(|of| of.withdrawn != 0);
    categories.iter_mut().for_each(|of| of.withdrawn = 0);
    some.then(|| write(book, WITH_WITHDRAWN, &categories))
}

#[cfg(test)]
mod tests {
    use super::*;
    use books::valid::{draft, Size};
    use books::Random;

    /// What is read of a draft is what it says, and comes back as it was.
    #[test]
    fn categories_of_drafts() {
        let mut random = Random::new(23);
        for size in [Size::Tiny, Size::Small, Size::Middle, Size::Large].repeat(50) {
            let draft = draft(&mut random, size);
            let bytes = draft.bytes();
            let all = read(&bytes).expect("the draft is sound");
            assert_eq!(write(&bytes, bytes[BLOCK], &all), bytes);
            let inherited = inherited(&all).expect("the draft is sound");
            assert_eq!(all.len(), draft.data.len());
            for (i, of) in all.iter().enumerate() {
                assert_eq!((of.parent, of.own), draft.data[i]);
                assert_eq!(of.withdrawn, draft.withdrawn_by(i as u8));
                let supported = inherited[i] & !of.withdrawn | of.own;
                assert_eq!(supported, draft.supported(i as u8));
            }
            let something = all.iter().any(|of| of.withdrawn != 0);
            assert_eq!(cleared(&bytes).is_some(), something);
        }
    }

    #[test]
    fn what_has_no_categories() {
        assert_eq!(read(&[]), None);
        assert_eq!(read(&[6; 1023]), None);
        let with = |kind: u8, count: u8| {
            let mut book = vec![0; 2 * BLOCK];
            (book[BLOCK], book[BLOCK + 1]) = (kind, count);
            read(&book).map(|categories| categories.len())
        };
        assert_eq!([with(2, 64), with(6, 64)], [Some(64); 2]);
        assert_eq!([with(2, 0), with(6, 65), with(6, 255)], [None; 3]);
        assert_eq!([with(0, 1), with(5, 1), with(7, 1)], [None; 3]);
    }
}
