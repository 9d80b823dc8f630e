//! What a book says, by its numbers, and its blocks.

use crate::action::RuleAction;
use pspec::{seal, Book, Refusal, BLOCK};

/// The most operations that a book has.
pub const OPERATIONS: usize = 15;
/// The label of a column that has none.
pub const UNLABELLED: u8 = 255;

/// The kind of the block of the data that has room for withdrawn operations.
const KIND_WITH_WITHDRAWN: u8 = 6;

/// What a book says, by its numbers.
#[derive(Clone, Debug, Default, PartialEq, Eq)]
pub struct Contents {
    /// The parent of each user category.
    pub users: Vec<u8>,
    /// The data categories.
    pub data: Vec<Category>,
    /// Is the block of the data of kind 6? It may be where no category withdraws anything.
    pub has_withdrawn: bool,
    /// The label of each column.
    pub columns: Vec<u8>,
    /// The operation of each function, 0 for none.
    pub functions: Vec<u8>,
    /// The rules.
    pub rules: Vec<Rule>,
}

/// A data category.
#[derive(Clone, Copy, Debug, Default, PartialEq, Eq)]
pub struct Category {
    /// The category above it.
    pub parent: u8,
    /// The mask of its own operations.
    pub own: u16,
    /// The mask of the operations that it withdraws.
    pub withdrawn: u16,
}

/// A rule.
#[derive(Clone, Debug, Default, PartialEq, Eq)]
pub struct Rule {
    /// The user category.
    pub user: u8,
    /// The excluded users.
    pub excluded: Vec<u8>,
    /// One to three references.
    pub references: Vec<Reference>,
    /// The three masks of each restriction; no restriction forbids.
    pub restrictions: Vec<[u16; 3]>,
}

/// A reference of a rule.
#[derive(Clone, Debug, PartialEq, Eq)]
pub struct Reference {
    /// The data category.
    pub category: u8,
    /// The action that it names.
    pub action: RuleAction,
    /// The excluded categories.
    pub excluded: Vec<u8>,
}

impl Contents {
    /// The sealed book, if the engine accepts it. Every list is short enough for its place: `policy`
    /// has seen to it.
    pub fn book(&self) -> Result<Book, Refusal> {
        let mut blocks = vec![
            block(1, self.users.len(), &self.users),
            self.data_block(),
            block(3, self.columns.len(), &self.columns),
            block(4, self.functions.len(), &self.functions),
        ];
        blocks.extend(self.rules.iter().map(Rule::block));
        for block in &mut blocks {
            seal(block).expect("a block has 512 bytes");
        }
        Book::new(blocks.concat())
    }

    /// Kind 6 where something is withdrawn, whatever `has_withdrawn` says: no mask is left out.
    fn data_block(&self) -> Vec<u8> {
        let withdraws = self.data.iter().any(|category| category.withdrawn != 0);
        let (kind, width) = data_form(self.has_withdrawn || withdraws);
        let category = |category: &Category| category.bytes().into_iter().take(width);
        let fields: Vec<u8> = self.data.iter().flat_map(category).collect();
        block(kind, self.data.len(), &fields)
    }

    /// What a book says.
    pub fn of(book: &Book) -> Contents {
        let blocks: Vec<&[u8]> = book.bytes().chunks_exact(BLOCK).collect();
        let fields =
            |block: usize, width: usize| &blocks[block][2..2 + width * count(blocks[block])];
        let has_withdrawn = blocks[1][0] == KIND_WITH_WITHDRAWN;
        let (_, width) = data_form(has_withdrawn);
        let categories = fields(1, width).chunks_exact(width);
        Contents {
            users: fields(0, 1).to_vec(),
            data: categories.map(Category::read).collect(),
            has_withdrawn,
            columns: fields(2, 1).to_vec(),
            functions: fields(3, 1).to_vec(),
            rules: blocks[4..].iter().map(|block| Rule::read(block)).collect(),
        }
    }

    /// The parent of each data category.
    pub fn parents(&self) -> Vec<u8> {
        self.data.iter().map(|category| category.parent).collect()
    }

    /// The operations that a data category supports: what its parent supports, less what it withdraws,
    /// and its own.
    pub fn supported(&self, category: u8) -> u16 {
        let Category {
            parent,
            own,
            withdrawn,
        } = self.data[usize::from(category)];
        match category {
            0 => own,
            _ => self.supported(parent) & !withdrawn | own,
        }
    }

    /// The category that takes an operation from a data category: this one or one above it, whose parent
    /// supports the operation. None where it is supported, or was never there to be taken.
    pub fn withdrawn_by(&self, mut category: u8, operation: u8) -> Option<u8> {
        let supports = |category: u8| self.supported(category) >> operation & 1 == 1;
        while category > 0 && !supports(category) {
            let parent = self.data[usize::from(category)].parent;
            if supports(parent) {
                return Some(category);
            }
            category = parent;
        }
        None
    }

    /// The operations in the order in which the text of this book names them.
    pub fn operations(&self) -> Vec<u8> {
        let in_line = |category: &Category| [category.own, category.withdrawn];
        let mut masks: Vec<u16> = self.data.iter().flat_map(in_line).collect();
        masks.extend(self.functions.iter().map(|&k| (1 << k) & !1));
        let restrictions = self.rules.iter().flat_map(|rule| &rule.restrictions);
        masks.extend(restrictions.flatten());
        let mut order = Vec::new();
        for k in masks.into_iter().flat_map(bits) {
            if !order.contains(&k) {
                order.push(k);
            }
        }
        order
    }
}

/// The kind of the block of the data, and the bytes of a category in it.
fn data_form(has_withdrawn: bool) -> (u8, usize) {
    match has_withdrawn {
        true => (KIND_WITH_WITHDRAWN, 5),
        false => (2, 3),
    }
}

impl Category {
    /// The five bytes of kind 6; the first three are those of kind 2.
    fn bytes(&self) -> [u8; 5] {
        let ([a, b], [c, d]) = (self.own.to_be_bytes(), self.withdrawn.to_be_bytes());
        [self.parent, a, b, c, d]
    }

    /// Of three bytes or five.
    fn read(bytes: &[u8]) -> Category {
        let mut masks = bytes[1..].chunks_exact(2);
        let mut mask = || {
            masks
                .next()
                .map_or(0, |mask| u16::from_be_bytes([mask[0], mask[1]]))
        };
        Category {
            parent: bytes[0],
            own: mask(),
            withdrawn: mask(),
        }
    }
}

impl Rule {
    /// The sealed block.
    pub fn sealed(&self) -> Vec<u8> {
        let mut block = self.block();
        seal(&mut block).expect("a block has 512 bytes");
        block
    }

    fn block(&self) -> Vec<u8> {
        let mut block = block(5, self.references.len(), &[self.user]);
        put_list(&mut block[3..8], &self.excluded);
        block[8] = self.restrictions.len() as u8;
        for (reference, place) in self
            .references
            .iter()
            .zip(block[16..64].chunks_exact_mut(16))
        {
            place[0] = reference.category;
            place[1] = reference.action.byte();
            put_list(&mut place[2..], &reference.excluded);
        }
        for (masks, place) in self
            .restrictions
            .iter()
            .zip(block[64..].chunks_exact_mut(6))
        {
            let bytes: Vec<u8> = masks.iter().flat_map(|mask| mask.to_be_bytes()).collect();
            place.copy_from_slice(&bytes);
        }
        block
    }

    fn read(block: &[u8]) -> Rule {
        let masks = |place: &[u8]| [0, 2, 4].map(|i| u16::from_be_bytes([place[i], place[i + 1]]));
        let references = block[16..64].chunks_exact(16).take(count(block));
        let restrictions = block[64..].chunks_exact(6).take(usize::from(block[8]));
        Rule {
            user: block[2],
            excluded: list(&block[3..]),
            references: references.map(Reference::read).collect(),
            restrictions: restrictions.map(masks).collect(),
        }
    }
}

impl Reference {
    fn read(place: &[u8]) -> Reference {
        let action = RuleAction::of_byte(place[1]);
        Reference {
            category: place[0],
            action: action.expect("the book is accepted"),
            excluded: list(&place[2..]),
        }
    }
}

/// The numbers of the set bits of a mask, lowest first.
pub fn bits(mask: u16) -> impl Iterator<Item = u8> {
    (0..16).filter(move |k| mask >> k & 1 == 1)
}

fn count(block: &[u8]) -> usize {
    usize::from(block[1])
}

fn block(kind: u8, count: usize, fields: &[u8]) -> Vec<u8> {
    let mut block = vec![0; BLOCK];
    block[0] = kind;
    block[1] = count as u8;
    block[2..2 + fields.len()].copy_from_slice(fields);
    block
}

/// A list with its count before it.
fn put_list(place: &mut [u8], list: &[u8]) {
    place[0] = list.len() as u8;
    place[1..1 + list.len()].copy_from_slice(list);
}

fn list(place: &[u8]) -> Vec<u8> {
    place[1..1 + usize::from(place[0])].to_vec()
}
