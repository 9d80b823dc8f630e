//! Books turned from one kind of block 1 to the other, and books in which more is withdrawn that nobody
//! inherits: both are to be answered alike (document 02, N9).

use crate::answer::{self, Answer};
use crate::categories::{self, Category, ALL, WITHOUT_WITHDRAWN, WITH_WITHDRAWN};
use crate::compare::{compare, Difference};
use crate::engine::Engine;
use crate::reached::Reached;
use books::draft::BLOCK;
use books::Case;

/// What is stated of a book of kind 2.
pub const NOTHING: Answer = Answer::Stated(
    "kind 2 reads as nothing withdrawn: a block of kind 6 with nothing withdrawn is answered alike",
);

/// What is stated of a book in which more is withdrawn.
pub const NOT_INHERITED: Answer = Answer::Stated(
    "a category supports what its parent supports, less the withdrawn ones: withdrawing others, or any \
     by the root, is answered alike",
);

/// The book with its block 1 of the other kind; none where that would lose something: a withdrawn operation, a
/// byte after the last category or a wrong check.
pub fn turned(book: &[u8]) -> Option<Vec<u8>> {
    let turn = |book: &[u8]| {
        let kind = match categories::kind(book)? {
            WITHOUT_WITHDRAWN => WITH_WITHDRAWN,
            _ => WITHOUT_WITHDRAWN,
        };
        let categories = categories::read(book)?;
        Some(categories::write(book, kind, &categories))
    };
    let turned = turn(book)?;
    let same = turn(&turned)? == book;
    same.then_some(turned)
}

/// The book with a block 1 of kind 6 in which each category withdraws all that it neither inherits nor owns.
/// None where block 1 is refused, or nothing more can be withdrawn.
pub fn more_withdrawn(book: &[u8]) -> Option<Vec<u8>> {
    let before = categories::read(book)?;
    let inherited = categories::inherited(&before)?;
    let mut after = before.clone();
    for (of, inherited) in after.iter_mut().zip(inherited) {
        of.withdrawn |= ALL & !inherited & !of.own;
    }
    let lawful = before.iter().all(Category::has_lawful_masks);
    let whole = categories::write(book, categories::kind(book)?, &before) == book;
    let more = lawful && whole && after != before;
    more.then(|| categories::write(book, WITH_WITHDRAWN, &after))
}

/// Another book that is to be answered alike, and by what. Half of the books are tried with one, which depends
/// on the check of block 1, so that it is the same for all calls with a book.
fn other(book: &[u8]) -> Option<(Answer, Vec<u8>)> {
    match book.get(2 * BLOCK - 1)? % 4 {
        0 => Some((NOTHING, turned(book)?)),
        1 => Some((NOT_INHERITED, more_withdrawn(book)?)),
        _ => None,
    }
}

/// Tries a case with another book that is to be answered alike: both engines answer it alike, and one of them
/// as the case itself.
pub fn try_kinds(
    engines: [&dyn Engine; 2],
    case: &Case,
    reached: &mut Reached,
) -> Result<(), Box<Difference>> {
    let Some((stated, book)) = case.book().and_then(other) else {
        return Ok(());
    };
    let Some(other) = case.with_book(book) else {
        return Ok(());
    };
    let answer = try_alike(engines[0], [case, &other], stated)?;
    compare(engines, &other)?;
    match stated {
        NOTHING => reached.withdrawn.count_turned(case, answer),
        _ => reached.withdrawn.count_more(case, answer),
    }
    Ok(())
}

/// The engine answers both cases, which differ in their books alone, and leaves their buffers alike.
pub fn try_alike(
    engine: &dyn Engine,
    [case, other]: [&Case; 2],
    stated: Answer,
) -> Result<Answer, Box<Difference>> {
    let [one, two] = [case, other].map(|given| {
        let mut after = given.clone();
        let answer = answer::of(engine, &mut after);
        let book = case.book().unwrap_or_default();
        (answer, after.with_book(book.to_vec()))
    });
    if one == two {
        return Ok(one.0);
    }
    let case = case.clone();
    let left = |after: Option<Case>| after.unwrap_or(case.clone());
    let sides = [
        ("documents", stated, left(one.1)),
        (engine.name(), two.0, left(two.1)),
    ];
    Err(Box::new(Difference { case, sides }))
}

#[cfg(test)]
mod tests {
    use super::*;
    use books::addresses::book;
    use books::draft::seal_all;
    use books::named::small_shop;

    /// The shop turns and turns back. Of the addresses, where something is withdrawn, it takes a block with
    /// nothing withdrawn.
    #[test]
    fn books_that_turn() {
        let shop = small_shop();
        let mut other = shop.clone();
        other.withdrawn = Some(vec![0; 5]);
        assert_eq!(turned(&shop.bytes()), Some(other.bytes()));
        assert_eq!(turned(&other.bytes()), Some(shop.bytes()));
        let mut addresses = book(&[]);
        assert_eq!(turned(&addresses.bytes()), None);
        addresses.withdrawn = Some(vec![0; 6]);
        assert!(turned(&addresses.bytes()).is_some());
    }

    /// A wrong parent and bit 0 of an own mask turn with the block, and so does what is wrong in another
    /// block; a wrong count, unused byte or check of block 1 does not.
    #[test]
    fn damaged_books_that_turn() {
        let turns = |byte: usize, to: u8, sealed: bool| {
            let mut bytes = small_shop().bytes();
            bytes[byte] = to;
            if sealed {
                seal_all(&mut bytes);
            }
            turned(&bytes).is_some()
        };
        for byte in [2, 4, 7] {
            assert!(turns(BLOCK + byte, 255, true));
        }
        assert!(turns(2, 255, true) && turns(2 * BLOCK, 9, true) && turns(3 * BLOCK, 9, false));
        assert!(!turns(BLOCK + 17, 1, true) && !turns(BLOCK + 509, 1, true));
        assert!(!turns(BLOCK + 1, 0, true) && !turns(BLOCK + 1, 65, true));
        assert!(
            !turns(BLOCK + 1, 4, true) && !turns(BLOCK, 3, true) && !turns(BLOCK + 2, 1, false)
        );
    }

    /// The root of the addresses owns and inherits nothing, and Lane inherits nothing from Street.
    #[test]
    fn what_more_can_be_withdrawn() {
        let addresses = book(&[]).bytes();
        let more = more_withdrawn(&addresses).expect("there is more");
        let masks: Vec<u16> = categories::read(&more)
            .expect("it has categories")
            .iter()
            .map(|of| of.withdrawn)
            .collect();
        assert_eq!(masks, [0xFFFE, 0xFFFC, 0xFFFE, 0xFFFC, 0xFFFE, 0xFFFC]);
        assert_eq!(more_withdrawn(&more), None);
        let mut damaged = addresses;
        damaged[BLOCK + 4] |= 1;
        seal_all(&mut damaged);
        assert_eq!(more_withdrawn(&damaged), None);
    }
}
