//! Faults of the masks of a block of kind 6, and of what its categories support (document 02, N9).

use crate::withdrawn::Takes;
use against::categories::{self, Category, ALL, WITH_WITHDRAWN};

/// The masks are read otherwise, or other masks are refused.
#[derive(Clone, Copy, Debug, PartialEq, Eq)]
pub enum Fault {
    OwnIsLowByteFirst,
    WithdrawnIsLowByteFirst,
    MasksAreExchanged,
    HighByteIsNotWithdrawn,
    LowByteIsNotWithdrawn,
    WithdrawnIsNotLookedAt,
    BothMasksAndOwnStays,
    BothMasksAndOwnIsLost,
    EqualMasksAloneAreRefused,
    OwnBitIsLetThrough,
    WithdrawnBitIsLetThrough,
    ParentsAreNotTested,
    WhatIsNotInheritedIsRefused,
    ARootThatWithdrawsIsRefused,
    WhatIsGivenBackIsRefused,
    NothingWithdrawnIsRefused,
}

pub const FAULTS: [Fault; 16] = [
    Fault::OwnIsLowByteFirst,
    Fault::WithdrawnIsLowByteFirst,
    Fault::MasksAreExchanged,
    Fault::HighByteIsNotWithdrawn,
    Fault::LowByteIsNotWithdrawn,
    Fault::WithdrawnIsNotLookedAt,
    Fault::BothMasksAndOwnStays,
    Fault::BothMasksAndOwnIsLost,
    Fault::EqualMasksAloneAreRefused,
    Fault::OwnBitIsLetThrough,
    Fault::WithdrawnBitIsLetThrough,
    Fault::ParentsAreNotTested,
    Fault::WhatIsNotInheritedIsRefused,
    Fault::ARootThatWithdrawsIsRefused,
    Fault::WhatIsGivenBackIsRefused,
    Fault::NothingWithdrawnIsRefused,
];

/// Those that answer a book otherwise when its block 1 is turned to the other kind, or when more is withdrawn
/// that nobody inherits.
pub const AGAINST_KINDS: [Fault; 6] = [
    Fault::OwnIsLowByteFirst,
    Fault::MasksAreExchanged,
    Fault::WhatIsNotInheritedIsRefused,
    Fault::ARootThatWithdrawsIsRefused,
    Fault::WhatIsGivenBackIsRefused,
    Fault::NothingWithdrawnIsRefused,
];

/// The categories of a block of kind 6 that has nothing wrong but what 5 is for.
fn categories_of_six(book: &[u8]) -> Option<Vec<Category>> {
    let all = categories::read(book).filter(|_| categories::has_withdrawn(book))?;
    let whole = categories::write(book, WITH_WITHDRAWN, &all) == book;
    whole.then_some(all)
}

impl Takes for Fault {
    fn taken(&self, _: &str, book: &[u8]) -> Vec<u8> {
        let Some(mut all) = categories_of_six(book) else {
            return book.to_vec();
        };
        if self.refuses(&all) {
            all[0].own |= 1;
        }
        for (i, of) in all.iter_mut().enumerate() {
            self.change(i, of);
        }
        categories::write(book, WITH_WITHDRAWN, &all)
    }
}

impl Fault {
    /// Changes the masks of a category, or its parent.
    fn change(&self, number: usize, of: &mut Category) {
        match self {
            Fault::OwnIsLowByteFirst => of.own = of.own.swap_bytes(),
            Fault::WithdrawnIsLowByteFirst => of.withdrawn = of.withdrawn.swap_bytes(),
            Fault::MasksAreExchanged => (of.own, of.withdrawn) = (of.withdrawn, of.own),
            Fault::HighByteIsNotWithdrawn => of.withdrawn &= of.own | 0x00FF,
            Fault::LowByteIsNotWithdrawn => of.withdrawn &= of.own | 0xFF01,
            Fault::WithdrawnIsNotLookedAt => of.withdrawn = 0,
            Fault::BothMasksAndOwnStays => of.withdrawn &= !(of.own & ALL),
            Fault::BothMasksAndOwnIsLost => of.own &= !(of.withdrawn & ALL),
            Fault::EqualMasksAloneAreRefused if of.own != of.withdrawn => {
                of.withdrawn &= !(of.own & ALL);
            }
            Fault::OwnBitIsLetThrough => of.own &= ALL,
            Fault::WithdrawnBitIsLetThrough => of.withdrawn &= ALL,
            Fault::ParentsAreNotTested if usize::from(of.parent) >= number => of.parent = 0,
            _ => {}
        }
    }

    /// Does the fault refuse such categories with 5?
    fn refuses(&self, all: &[Category]) -> bool {
        let Some(inherited) = categories::inherited(all) else {
            return false;
        };
        let mut below = all.iter().zip(inherited).skip(1);
        match self {
            Fault::WhatIsNotInheritedIsRefused => {
                below.any(|(of, inherited)| of.withdrawn & !inherited != 0)
            }
            Fault::ARootThatWithdrawsIsRefused => all[0].withdrawn != 0,
            Fault::WhatIsGivenBackIsRefused => {
                below.any(|(of, _)| all[usize::from(of.parent)].withdrawn & of.own != 0)
            }
            Fault::NothingWithdrawnIsRefused => all.iter().all(|of| of.withdrawn == 0),
            _ => false,
        }
    }
}

/// What a category supports is worked out otherwise.
#[derive(Clone, Copy, Debug, PartialEq, Eq)]
pub enum Support {
    /// No fault: the book is written otherwise and says the same.
    Right,
    WithdrawnIsIgnored,
    WithdrawnForItselfAlone,
    WithdrawnForThoseBelowAlone,
    WithdrawnForAll,
    WithdrawnByLeavesAlone,
    WithdrawnByOthersThanLeaves,
    WithdrawnByTheRootFromAll,
    WithdrawnFromWhatTheRootOwnsAlone,
    StaysWithdrawnThoughOwned,
    GivenBackForItselfAlone,
    NothingIsInherited,
}

pub const OF_SUPPORT: [Support; 11] = [
    Support::WithdrawnIsIgnored,
    Support::WithdrawnForItselfAlone,
    Support::WithdrawnForThoseBelowAlone,
    Support::WithdrawnForAll,
    Support::WithdrawnByLeavesAlone,
    Support::WithdrawnByOthersThanLeaves,
    Support::WithdrawnByTheRootFromAll,
    Support::WithdrawnFromWhatTheRootOwnsAlone,
    Support::StaysWithdrawnThoughOwned,
    Support::GivenBackForItselfAlone,
    Support::NothingIsInherited,
];

/// Those that answer a book otherwise when its block 1 is turned to the other kind, or when more is withdrawn
/// that nobody inherits.
pub const SUPPORT_AGAINST_KINDS: [Support; 5] = [
    Support::WithdrawnForAll,
    Support::WithdrawnByTheRootFromAll,
    Support::StaysWithdrawnThoughOwned,
    Support::GivenBackForItselfAlone,
    Support::NothingIsInherited,
];

impl Takes for Support {
    fn taken(&self, _: &str, book: &[u8]) -> Vec<u8> {
        let lawful = |all: &Vec<Category>| {
            let masks = all.iter().all(Category::has_lawful_masks);
            masks && categories::parents_are_lower(all)
        };
        match categories_of_six(book).filter(lawful) {
            None => book.to_vec(),
            Some(all) => {
                let taken = with_support(&all, &self.supported(&all));
                categories::write(book, WITH_WITHDRAWN, &taken)
            }
        }
    }
}

/// Categories that support just this.
fn with_support(all: &[Category], supported: &[u16]) -> Vec<Category> {
    let one = |(i, of): (usize, &Category)| {
        let above = match i {
            0 => 0,
            _ => supported[usize::from(of.parent)],
        };
        Category {
            parent: of.parent,
            own: supported[i] & !above,
            withdrawn: above & !supported[i],
        }
    };
    all.iter().enumerate().map(one).collect()
}

/// What is known of a category when those below it are come to.
#[derive(Clone, Copy, Default)]
struct Above {
    /// What it supports, as the fault has it.
    supported: u16,
    /// What it and those above it own.
    owned: u16,
    /// What it and those above it withdraw, but for the root.
    withdrawn: u16,
    /// What it withdraws itself.
    own_withdrawn: u16,
}

impl Support {
    /// What each category supports, as the fault has it.
    fn supported(&self, all: &[Category]) -> Vec<u16> {
        let everywhere = all.iter().fold(0, |masks, of| masks | of.withdrawn);
        let mut found: Vec<Above> = Vec::new();
        for (i, of) in all.iter().enumerate() {
            let above = match i {
                0 => Above::default(),
                _ => found[usize::from(of.parent)],
            };
            let mut lower = all[1..].iter();
            let is_leaf = !lower.any(|child| usize::from(child.parent) == i);
            let owned = above.owned | of.own;
            let withdrawn = match i {
                0 => 0,
                _ => above.withdrawn | of.withdrawn,
            };
            let supported = match self {
                _ if i == 0 => of.own,
                Support::WithdrawnForAll => owned & !everywhere,
                Support::WithdrawnByTheRootFromAll => {
                    (above.supported & !of.withdrawn | of.own) & !all[0].withdrawn
                }
                Support::WithdrawnFromWhatTheRootOwnsAlone => {
                    above.supported & !(of.withdrawn & all[0].own) | of.own
                }
                _ => self.of_line(of, above, is_leaf),
            };
            found.push(Above {
                supported,
                owned,
                withdrawn,
                own_withdrawn: of.withdrawn,
            });
        }
        found.into_iter().map(|of| of.supported).collect()
    }

    /// What a category other than the root supports, by itself and what is above it.
    fn of_line(&self, of: &Category, above: Above, is_leaf: bool) -> u16 {
        let inherits = |withdrawn: u16| above.supported & !withdrawn | of.own;
        let all_withdrawn = above.withdrawn | of.withdrawn;
        match self {
            Support::WithdrawnForItselfAlone => (above.owned | of.own) & !of.withdrawn,
            Support::WithdrawnForThoseBelowAlone => inherits(above.own_withdrawn),
            Support::WithdrawnByLeavesAlone if !is_leaf => inherits(0),
            Support::WithdrawnByOthersThanLeaves if is_leaf => inherits(0),
            Support::StaysWithdrawnThoughOwned => (above.owned | of.own) & !all_withdrawn,
            Support::GivenBackForItselfAlone => above.owned & !all_withdrawn | of.own,
            Support::NothingIsInherited => of.own,
            Support::WithdrawnIsIgnored => inherits(0),
            _ => inherits(of.withdrawn),
        }
    }
}
