//! "Kind 2 reads as nothing withdrawn" (document 02, N9): random books and named ones turned from one kind of
//! block 1 to the other, for every engine and every call, and what is withdrawn in vain.

use against::answer::Answer;
use against::categories::{WITHOUT_WITHDRAWN, WITH_WITHDRAWN};
use against::engine::{by_name, Engine};
use against::kinds::{more_withdrawn, try_alike, turned, NOTHING, NOT_INHERITED};
use books::draft::BLOCK;
use books::histories::{Act, Call};
use books::records::Records;
use books::trees::Tree;
use books::{case, named, plans, Case, Draft, Random};
use std::collections::BTreeMap;

fn engines() -> impl Iterator<Item = Box<dyn Engine>> {
    let names = ["second", "naive", "engine"].into_iter();
    names.filter_map(by_name)
}

/// What the engine answers to a case, and to the same case with the other book; nothing where there is none.
fn alike(
    engine: &dyn Engine,
    case: &Case,
    other: fn(&[u8]) -> Option<Vec<u8>>,
    stated: Answer,
) -> Option<Answer> {
    let other = case.with_book(other(case.book()?)?)?;
    let answer = try_alike(engine, [case, &other], stated);
    Some(answer.unwrap_or_else(|difference| panic!("{difference}")))
}

/// Ten calls, each answered and refused for its book many times, for either other book.
#[test]
fn random_books() {
    for engine in engines() {
        let mut random = Random::new(31);
        let mut counts: BTreeMap<(&str, bool, bool), u64> = BTreeMap::new();
        for _ in 0..400 {
            let size = case::next_size(&mut random);
            for case in case::round(&mut random, size) {
                let tried = [
                    alike(engine.as_ref(), &case, turned, NOTHING),
                    alike(engine.as_ref(), &case, more_withdrawn, NOT_INHERITED),
                ];
                for (of, answer) in [false, true].into_iter().zip(tried) {
                    let Some(answer) = answer else { continue };
                    let refused = matches!(answer, Answer::Refused(r) if r.number < 10);
                    *counts.entry((case.call(), of, refused)).or_default() += 1;
                }
            }
        }
        assert_eq!(counts.len(), 10 * 4, "{}: {counts:?}", engine.name());
        assert!(counts.values().all(|&n| n >= 20), "{counts:?}");
    }
}

/// An ask from fresh, and an ask, a commit and a drop where the user holds a plan.
fn on_records(book: &[u8], plan: &[u8]) -> Vec<Case> {
    let mut held = Records::fresh();
    (held.holds.users[5], held.holds.numbers[5]) = (1, 9);
    held.holds.words_of_mut(5).fill(u64::MAX);
    let mut cases = vec![Call::ask(1, plan.to_vec()).with(book, &Records::fresh())];
    let acts = [Act::Ask(plan.to_vec()), Act::Commit(9), Act::Drop(9)];
    cases.extend(acts.map(|act| Call { user: 1, act }.with(book, &held)));
    cases
}

/// Each call with a book, the plan of 64 rows.
fn cases(draft: &Draft, rule: u32) -> Vec<Case> {
    let book = draft.bytes();
    let plan = plans::full(&mut Random::new(3), draft);
    let tree = Tree {
        book: book.clone(),
        plan: plan.clone(),
        row: 0,
        lent: 20,
        memory: vec![7; 24],
    };
    let of_book = |case: fn(Vec<u8>, u32) -> Case| case(book.clone(), rule);
    let mut cases = on_records(&book, &plan);
    cases.extend([
        of_book(|book, _| Case::Check { book }),
        of_book(|book, rule| Case::Blocked { book, rule }),
        of_book(|book, rule| Case::Culprits { book, rule }),
        of_book(|book, rule| Case::Idle {
            book,
            rule,
            buffer: vec![7; 36],
        }),
        Case::Flows {
            book: book.clone(),
            plan: plan.clone(),
            words: vec![1; 32],
        },
        Case::Tree(tree),
        Case::Judge {
            book,
            user: 1,
            plan,
        },
    ]);
    cases
}

/// The named books of kind 2, but for those that are hard to search.
#[test]
fn named_books() {
    let mut drafts: Vec<(Draft, u32)> = named::all()
        .into_iter()
        .filter(|(name, ..)| !name.starts_with("hard"))
        .map(|(_, draft, rule)| (draft, rule))
        .collect();
    drafts.extend([(named::chain(), 0), (named::opposed_shop(), 3)]);
    for engine in engines() {
        for (draft, rule) in &drafts {
            assert_eq!(draft.bytes()[BLOCK], WITHOUT_WITHDRAWN);
            for case in cases(draft, *rule) {
                assert!(alike(engine.as_ref(), &case, turned, NOTHING).is_some());
                alike(engine.as_ref(), &case, more_withdrawn, NOT_INHERITED);
            }
        }
    }
}

/// Seal takes a block of either kind alike: the check is written, other bytes are as they were.
#[test]
fn blocks_of_either_kind_are_sealed() {
    let two = named::largest().bytes();
    let six = turned(&two).expect("nothing is withdrawn");
    let chain = named::withdrawing_chain().bytes();
    for engine in engines() {
        for (book, kind) in [
            (&two, WITHOUT_WITHDRAWN),
            (&six, WITH_WITHDRAWN),
            (&chain, WITH_WITHDRAWN),
        ] {
            let sealed = &book[BLOCK..2 * BLOCK];
            assert_eq!(sealed[0], kind);
            let mut block = sealed.to_vec();
            block[510..].fill(9);
            assert_eq!(engine.seal(&mut block), Ok(()));
            assert_eq!(block, sealed, "{}", engine.name());
        }
    }
}
