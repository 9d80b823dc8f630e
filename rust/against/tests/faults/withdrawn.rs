//! Faults of the two kinds of block 1 (document 02, N9): a book is taken for another one, which the good
//! engine is then given.

use crate::{assert_shown_again, Faulty, FaultyEngine, GOOD};
use against::categories::{self, Category, WITHOUT_WITHDRAWN, WITH_WITHDRAWN};
use against::engine::{Blocking, Causes, Idleness, Reply};
use against::kinds::{NOTHING, NOT_INHERITED};
use against::run::try_case;
use against::{Engine, Reached};
use books::draft::{seal_all, BLOCK};
use books::records::Records;
use books::trees::Tree;
use books::{case, Random};
use second::book::Book;
use second::{reading, Refusal};
use std::fmt::Debug;

/// A fault by which a book is taken for another one.
pub trait Takes {
    /// The book as a call takes it.
    fn taken(&self, call: &str, book: &[u8]) -> Vec<u8>;
}

impl<T: Takes> Faulty for T {
    fn check(&self, book: &[u8]) -> Result<u32, Refusal> {
        GOOD.check(&self.taken("check", book))
    }

    fn flows(&self, book: &[u8], plan: &[u8], words: &mut [u64]) -> Result<(), Refusal> {
        GOOD.flows(&self.taken("flows", book), plan, words)
    }

    fn judge(&self, book: &[u8], user: u32, plan: &[u8]) -> Result<u32, Refusal> {
        GOOD.judge(&self.taken("judge", book), user, plan)
    }

    fn idle(&self, book: &[u8], rule: u32, buffer: &mut [u8]) -> Idleness {
        GOOD.idle(&self.taken("idle", book), rule, buffer)
    }

    fn blocked(&self, book: &[u8], rule: u32) -> Blocking {
        GOOD.blocked(&self.taken("blocked", book), rule)
    }

    fn culprits(&self, book: &[u8], rule: u32) -> Causes {
        GOOD.culprits(&self.taken("culprits", book), rule)
    }

    fn ask(
        &self,
        book: &[u8],
        user: u32,
        plan: &[u8],
        records: &mut Records,
    ) -> Result<Reply, Refusal> {
        GOOD.ask(&self.taken("ask", book), user, plan, records)
    }

    fn commit(
        &self,
        book: &[u8],
        user: u32,
        number: u32,
        records: &mut Records,
    ) -> Result<u32, Refusal> {
        GOOD.commit(&self.taken("commit", book), user, number, records)
    }

    fn drop_hold(
        &self,
        book: &[u8],
        user: u32,
        number: u32,
        records: &mut Records,
    ) -> Result<u32, Refusal> {
        GOOD.drop_hold(&self.taken("drop", book), user, number, records)
    }

    fn tree(&self, given: &mut Tree) -> Result<u32, Refusal> {
        let taken = self.taken("tree", &given.book);
        let book = std::mem::replace(&mut given.book, taken);
        let answer = GOOD.tree(given);
        given.book = book;
        answer
    }
}

#[derive(Clone, Copy, Debug, PartialEq, Eq)]
pub enum Fault {
    SixIsRefused,
    SixStandsForUsers,
    SixStandsForColumns,
    SixStandsForFunctions,
    SixStandsForRules,
    AnyOtherKindIsSix,
    TwoHasFiveBytes,
    SixHasThreeBytes,
    PlacesAreCutToAByte,
    UnusedFromThreeBytesInSix,
    UnusedFromFiveBytesInTwo,
    NothingIsUnusedInSix,
    CountsUpToWhatFits,
    MasksBeforeUnusedBytes,
    MasksAreAskedOfEveryLeaf,
    MasksAreAskedOfSomeLeaf,
}

pub const OF_KINDS: [Fault; 16] = [
    Fault::SixIsRefused,
    Fault::SixStandsForUsers,
    Fault::SixStandsForColumns,
    Fault::SixStandsForFunctions,
    Fault::SixStandsForRules,
    Fault::AnyOtherKindIsSix,
    Fault::TwoHasFiveBytes,
    Fault::SixHasThreeBytes,
    Fault::PlacesAreCutToAByte,
    Fault::UnusedFromThreeBytesInSix,
    Fault::UnusedFromFiveBytesInTwo,
    Fault::NothingIsUnusedInSix,
    Fault::CountsUpToWhatFits,
    Fault::MasksBeforeUnusedBytes,
    Fault::MasksAreAskedOfEveryLeaf,
    Fault::MasksAreAskedOfSomeLeaf,
];

/// Those that answer a book otherwise when its block 1 is turned to the other kind.
pub const AGAINST_KINDS: [Fault; 5] = [
    Fault::SixIsRefused,
    Fault::TwoHasFiveBytes,
    Fault::SixHasThreeBytes,
    Fault::PlacesAreCutToAByte,
    Fault::UnusedFromThreeBytesInSix,
];

impl Takes for Fault {
    fn taken(&self, _: &str, book: &[u8]) -> Vec<u8> {
        let mut taken = book.to_vec();
        // Lengths and checks come first.
        if matches!(GOOD.check(book), Err(refusal) if refusal.number <= 2) {
            return taken;
        }
        match self {
            Fault::MasksAreAskedOfEveryLeaf => of_every_leaf(&mut taken),
            Fault::MasksAreAskedOfSomeLeaf => of_some_leaf(&mut taken),
            _ => {
                self.change_kinds(&mut taken);
                self.change_data(&mut taken[BLOCK..2 * BLOCK], categories::read(book));
            }
        }
        seal_all(&mut taken);
        taken
    }
}

impl Fault {
    fn change_kinds(&self, book: &mut [u8]) {
        let stands = |book: &mut [u8], block: usize, kind: u8| {
            if book[block * BLOCK] == WITH_WITHDRAWN {
                book[block * BLOCK] = kind;
            }
        };
        match self {
            Fault::SixIsRefused => stands(book, 1, 0),
            Fault::SixStandsForUsers => stands(book, 0, 1),
            Fault::SixStandsForColumns => stands(book, 2, 3),
            Fault::SixStandsForFunctions => stands(book, 3, 4),
            Fault::SixStandsForRules => {
                (4..book.len() / BLOCK).for_each(|block| stands(book, block, 5));
            }
            Fault::AnyOtherKindIsSix if book[BLOCK] != WITHOUT_WITHDRAWN => {
                book[BLOCK] = WITH_WITHDRAWN;
            }
            Fault::TwoHasFiveBytes if book[BLOCK] == WITHOUT_WITHDRAWN => {
                book[BLOCK] = WITH_WITHDRAWN;
            }
            Fault::SixHasThreeBytes => stands(book, 1, WITHOUT_WITHDRAWN),
            _ => {}
        }
    }

    /// Changes block 1 of an accepted kind; the categories are there where its count is in bounds.
    fn change_data(&self, block: &mut [u8], categories: Option<Vec<Category>>) {
        let count = usize::from(block[1]);
        let six = block[0] == WITH_WITHDRAWN;
        match (self, categories) {
            (Fault::CountsUpToWhatFits, None) if six && (65..=101).contains(&count) => {
                block[1] = 64;
            }
            (Fault::PlacesAreCutToAByte, Some(_)) if six => {
                let before = block.to_vec();
                (2..2 + 5 * count).for_each(|place| block[place] = before[place % 256]);
            }
            (Fault::UnusedFromThreeBytesInSix, Some(_)) if six => {
                let unused = block[2 + 3 * count..510].iter().any(|&byte| byte != 0);
                block[509] |= u8::from(unused);
            }
            (Fault::UnusedFromFiveBytesInTwo, Some(_)) if block[0] == WITHOUT_WITHDRAWN => {
                block[2 + 3 * count..2 + 5 * count].fill(0);
            }
            (Fault::NothingIsUnusedInSix, Some(_)) if six => block[2 + 5 * count..].fill(0),
            (Fault::MasksBeforeUnusedBytes, Some(all)) if six => {
                let masks = all.iter().all(Category::has_lawful_masks);
                if !masks || !categories::parents_are_lower(&all) {
                    block[2 + 5 * count..].fill(0);
                }
            }
            _ => {}
        }
    }
}

/// A mask is refused where a leaf that its reference covers does not support it.
fn of_every_leaf(bytes: &mut [u8]) {
    let Ok(book) = reading::read(bytes) else {
        return;
    };
    each_mask(bytes, &book, |mask, leaves, _| {
        let lacking = leaves.iter().any(|supported| mask & !supported != 0);
        mask | u16::from(lacking)
    });
}

/// A mask is taken where some leaf that its reference covers supports it, though the category does not.
fn of_some_leaf(bytes: &mut [u8]) {
    let mut without_masks = bytes.to_vec();
    for rule in without_masks.chunks_mut(BLOCK).skip(4) {
        rule[8] = 0;
        rule[64..112].fill(0);
    }
    seal_all(&mut without_masks);
    let Ok(book) = reading::read(&without_masks) else {
        return;
    };
    each_mask(bytes, &book, |mask, leaves, category| {
        let some = leaves.iter().fold(0, |some, supported| some | supported);
        mask & !(some & !category)
    });
}

/// Changes each mask of each rule, by what each covered leaf and what the category supports.
fn each_mask(bytes: &mut [u8], book: &Book, change: impl Fn(u16, &[u16], u16) -> u16) {
    let supported = |category: usize| -> u16 {
        let all = book.supported[category].iter();
        all.map(|operation| 1 << operation).sum()
    };
    let blocks = bytes.chunks_mut(BLOCK).skip(4);
    for (block, rule) in blocks.zip(&book.rules) {
        let restrictions = usize::from(block[8]).min(8);
        for (i, reference) in rule.references.iter().enumerate() {
            let leaves: Vec<u16> = reference.leaves.iter().map(|&l| supported(l)).collect();
            let category = supported(usize::from(block[16 + 16 * i]));
            for start in (0..restrictions).map(|j| 64 + 6 * j + 2 * i) {
                let mask = u16::from_be_bytes([block[start], block[start + 1]]);
                let changed = change(mask, &leaves, category).to_be_bytes();
                block[start..start + 2].copy_from_slice(&changed);
            }
        }
    }
}

/// In one call nothing is taken for withdrawn; in Check this is so for the masks of rules.
#[derive(Clone, Copy, Debug)]
pub struct IgnoredIn(pub &'static str);

impl Takes for IgnoredIn {
    fn taken(&self, call: &str, book: &[u8]) -> Vec<u8> {
        let lawful = match GOOD.check(book) {
            Ok(_) => true,
            Err(refusal) => call == "check" && refusal.number == 9,
        };
        let cleared = categories::cleared(book).filter(|_| lawful && self.0 == call);
        cleared.unwrap_or(book.to_vec())
    }
}

/// Both engines have the fault: books that say the same otherwise are not answered alike. Edits, which have their
/// books in records, are not asked.
pub fn is_found_by_kinds(fault: impl Faulty + Copy + Debug) {
    let faulty = FaultyEngine(fault);
    let engines: [&dyn Engine; 2] = [&faulty, &faulty];
    let mut random = Random::new(6);
    let mut reached = Reached::default();
    let difference = (0..2_000).find_map(|_| {
        let size = case::next_size(&mut random);
        let cases = case::round(&mut random, size);
        let mut tried = cases
            .iter()
            .filter(|case| case.edited().is_none())
            .map(|case| try_case(engines, case, &mut reached));
        tried.find_map(Result::err)
    });
    let difference = difference.unwrap_or_else(|| panic!("{fault:?} not found"));
    let (_, stated, _) = &difference.sides[0];
    println!("{fault:?} against '{stated}', {} cases", reached.cases);
    assert!([NOTHING, NOT_INHERITED].contains(stated), "{stated}");
    assert_shown_again(engines, &difference);
}
