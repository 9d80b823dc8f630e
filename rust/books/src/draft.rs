//! A book before it is bytes.

use std::collections::BTreeSet;

/// The size of a block.
pub const BLOCK: usize = 512;

/// The action projection.
pub const PROJECTION: u8 = 1;
/// The action condition.
pub const CONDITION: u8 = 2;
/// Either action.
pub const ACCESS: u8 = 3;

/// What a book is to say, by its numbers.
#[derive(Clone, Debug, Default, PartialEq, Eq)]
pub struct Draft {
    /// The parent of each user category.
    pub users: Vec<u8>,
    /// The parent and the own operations of each data category.
    pub data: Vec<(u8, u16)>,
    /// What each data category withdraws, for a block 1 of kind 6; none for kind 2.
    pub withdrawn: Option<Vec<u16>>,
    /// The label of each column.
    pub columns: Vec<u8>,
    /// The operation of each function.
    pub functions: Vec<u8>,
    /// The rules.
    pub rules: Vec<Rule>,
}

/// A rule of a draft.
#[derive(Clone, Debug, Default, PartialEq, Eq)]
pub struct Rule {
    /// The user category.
    pub user: u8,
    /// The excluded users.
    pub excluded: Vec<u8>,
    /// One to three references.
    pub references: Vec<Reference>,
    /// The three masks of each restriction.
    pub restrictions: Vec<[u16; 3]>,
}

/// A reference of a draft.
#[derive(Clone, Debug, Default, PartialEq, Eq)]
pub struct Reference {
    /// The data category.
    pub category: u8,
    /// [`PROJECTION`], [`CONDITION`] or [`ACCESS`].
    pub action: u8,
    /// The excluded categories.
    pub excluded: Vec<u8>,
}

/// A reference without exclusions.
pub(crate) fn reference(category: u8, action: u8) -> Reference {
    Reference {
        category,
        action,
        excluded: vec![],
    }
}

impl Draft {
    /// The book as sealed bytes.
    pub fn bytes(&self) -> Vec<u8> {
        let mut book = block(1, self.users.len(), &self.users);
        book.extend(self.data_block());
        book.extend(block(3, self.columns.len(), &self.columns));
        book.extend(block(4, self.functions.len(), &self.functions));
        for rule in &self.rules {
            book.extend(rule.block());
        }
        book
    }

    /// Block 1, of kind 2 or 6.
    fn data_block(&self) -> Vec<u8> {
        let mut fields = Vec::new();
        for (i, (parent, own)) in self.data.iter().enumerate() {
            fields.push(*parent);
            fields.extend(own.to_be_bytes());
            let withdrawn = self
                .withdrawn
                .iter()
                .flat_map(|masks| masks[i].to_be_bytes());
            fields.extend(withdrawn);
        }
        let kind = if self.withdrawn.is_some() { 6 } else { 2 };
        block(kind, self.data.len(), &fields)
    }

    /// The bytes that block 1 has for a category.
    pub fn width(&self) -> usize {
        match self.withdrawn {
            Some(_) => 5,
            None => 3,
        }
    }

    /// The operations that a data category withdraws.
    pub fn withdrawn_by(&self, category: u8) -> u16 {
        let masks = self.withdrawn.as_ref();
        masks.map_or(0, |masks| masks[usize::from(category)])
    }

    /// The parent of each data category.
    pub fn parents(&self) -> Vec<u8> {
        self.data.iter().map(|&(parent, _)| parent).collect()
    }

    /// The operations that a data category supports.
    pub fn supported(&self, category: u8) -> u16 {
        let (parent, own) = self.data[usize::from(category)];
        match category {
            0 => own,
            _ => own | self.supported(parent) & !self.withdrawn_by(category),
        }
    }

    /// The operations that a data category would support if nothing were withdrawn: its own and those of the
    /// categories above it.
    pub fn owned_above(&self, category: u8) -> u16 {
        let (parent, own) = self.data[usize::from(category)];
        match category {
            0 => own,
            _ => own | self.owned_above(parent),
        }
    }

    /// The leaves of a reference.
    pub fn leaves_of(&self, reference: &Reference) -> BTreeSet<u8> {
        let parents = self.parents();
        let out = |leaf: &u8| {
            reference
                .excluded
                .iter()
                .any(|&x| under(&parents, *leaf, x))
        };
        leaves(&parents)
            .into_iter()
            .filter(|&leaf| under(&parents, leaf, reference.category))
            .filter(|leaf| !out(leaf))
            .collect()
    }

    /// The same book with these rules alone, in this order.
    pub fn with_rules(&self, rules: &[usize]) -> Draft {
        let rules = rules.iter().map(|&r| self.rules[r].clone()).collect();
        Draft {
            rules,
            ..self.clone()
        }
    }
}

impl Rule {
    /// The rule as a sealed block.
    pub fn block(&self) -> Vec<u8> {
        let mut block = vec![0; BLOCK];
        block[0] = 5;
        block[1] = self.references.len() as u8;
        block[2] = self.user;
        put_list(&mut block, 3, &self.excluded);
        block[8] = self.restrictions.len() as u8;
        for (i, reference) in self.references.iter().enumerate() {
            let start = 16 + 16 * i;
            block[start] = reference.category;
            block[start + 1] = reference.action;
            put_list(&mut block, start + 2, &reference.excluded);
        }
        for (j, masks) in self.restrictions.iter().enumerate() {
            let bytes: Vec<u8> = masks.iter().flat_map(|m| m.to_be_bytes()).collect();
            block[64 + 6 * j..70 + 6 * j].copy_from_slice(&bytes);
        }
        seal(&mut block);
        block
    }
}

fn put_list(block: &mut [u8], count: usize, list: &[u8]) {
    block[count] = list.len() as u8;
    block[count + 1..count + 1 + list.len()].copy_from_slice(list);
}

fn block(kind: u8, count: usize, fields: &[u8]) -> Vec<u8> {
    let mut block = vec![0; BLOCK];
    block[0] = kind;
    block[1] = count as u8;
    block[2..2 + fields.len()].copy_from_slice(fields);
    seal(&mut block);
    block
}

/// Writes the check of one block.
pub fn seal(block: &mut [u8]) {
    let check = check_of(block);
    block[510..512].copy_from_slice(&check.to_be_bytes());
}

/// The check that a block should carry.
pub fn check_of(block: &[u8]) -> u16 {
    let terms = block[..510].iter().zip(1u32..);
    let sum: u32 = terms.map(|(&byte, weight)| weight * u32::from(byte)).sum();
    (sum % 65_521) as u16
}

/// Seals every whole block of a book.
pub fn seal_all(book: &mut [u8]) {
    book.chunks_exact_mut(BLOCK).for_each(seal);
}

/// Is a category the other one or below it?
pub fn under(parents: &[u8], mut lower: u8, upper: u8) -> bool {
    while lower > upper {
        lower = parents[usize::from(lower)];
    }
    lower == upper
}

/// All leaves of a hierarchy.
pub fn leaves(parents: &[u8]) -> Vec<u8> {
    let named = |c: u8| parents[1..].contains(&c);
    (0..parents.len() as u8).filter(|&c| !named(c)).collect()
}

/// All categories below a category, itself not among them.
pub fn below(parents: &[u8], category: u8) -> Vec<u8> {
    (category + 1..parents.len() as u8)
        .filter(|&c| under(parents, c, category))
        .collect()
}

#[cfg(test)]
mod tests {
    use super::*;

    #[test]
    fn families() {
        let parents = [0, 0, 1, 1, 0];
        assert_eq!(leaves(&parents), [2, 3, 4]);
        assert_eq!(leaves(&[0]), [0]);
        assert_eq!(below(&parents, 1), [2, 3]);
        assert!(under(&parents, 3, 0) && !under(&parents, 4, 1));
    }

    /// A root that owns 1 and 8 and withdraws 2, a category that withdraws 8 and 3, which its parent does
    /// not have, and one below it that owns 8 again.
    #[test]
    fn withdrawn_operations() {
        let mut draft = Draft {
            data: vec![(0, 0x0102), (0, 0), (1, 0x0100)],
            withdrawn: Some(vec![0x0004, 0x0108, 0]),
            ..Draft::default()
        };
        assert_eq!([0, 1, 2].map(|c| draft.supported(c)), [0x0102, 2, 0x0102]);
        assert_eq!([0, 1, 2].map(|c| draft.owned_above(c)), [0x0102; 3]);
        let block = &draft.bytes()[BLOCK..2 * BLOCK];
        let categories = [0, 1, 2, 0, 4, 0, 0, 0, 1, 8, 1, 1, 0, 0, 0];
        assert_eq!(block[..2], [6, 3]);
        assert_eq!(block[2..17], categories);
        assert!(block[17..510].iter().all(|&byte| byte == 0));
        draft.withdrawn = None;
        assert_eq!([0, 1, 2].map(|c| draft.supported(c)), [0x0102; 3]);
        let block = &draft.bytes()[BLOCK..2 * BLOCK];
        assert_eq!(block[..11], [2, 3, 0, 1, 2, 0, 0, 0, 1, 1, 0]);
    }
}
