//! The named books: both answer alike, the hard rules are idle or needed as they were made to be,
//! and what is hard to open is open. The named plans: both write the same trees.

use against::answer::Answer;
use against::compare::compare;
use against::engine::{by_name, nodes_and_length, packed, with_asking, USUAL};
use books::blocked::{hard, Found};
use books::draft::BLOCK;
use books::edit_lists::Edit;
use books::edits::Record;
use books::histories::{Act, Call};
use books::records::{Records, Tally, LEDGER};
use books::trees::{self, extents, Tree, MOST, ROOM};
use books::{named, plans, Case, Draft, Random};
use second::access::Action;
use second::blocked::Datum;

/// Every call on a book, with every user and plans of 64 rows.
fn cases(draft: &Draft) -> Vec<Case> {
    let mut random = Random::new(2);
    let book = draft.bytes();
    let mut cases = vec![Case::Check { book: book.clone() }];
    for user in 0..draft.users.len() as u32 {
        let plan = plans::full(&mut random, draft);
        cases.push(Case::Flows {
            book: book.clone(),
            plan: plan.clone(),
            words: vec![1; 32],
        });
        cases.push(Case::Judge {
            book: book.clone(),
            user,
            plan: plan.clone(),
        });
        // The second implementation is slow with so many accesses.
        if user % 8 == 1 {
            cases.extend(on_records(&book, user, &plan));
        }
    }
    cases.extend(edits(&book));
    cases
}

/// The last rule arrives at the others, all of them marked, and the first one and the last leave a book without
/// marks: what is kept takes no search.
fn edits(book: &[u8]) -> Vec<Case> {
    let (others, last) = book.split_at(book.len() - BLOCK);
    let mut record = Record::of(others);
    record.marks = u32::MAX;
    let mut cases = vec![Edit::Arrive(last.to_vec()).with(&record)];
    let record = Record::of(book);
    for rule in [0, record.rules - 1] {
        cases.push(Edit::Depart(rule).with(&record));
    }
    cases
}

/// An ask, a commit and a drop where the user has seen nothing, every access, or all accesses by one operation, and
/// where he and others hold nothing, or plans of any accesses.
fn on_records(book: &[u8], user: u32, plan: &[u8]) -> Vec<Case> {
    let one_operation = |i: usize| if i % 16 == 3 { u64::MAX } else { 0 };
    let ledgers = [
        vec![0; LEDGER],
        vec![u64::MAX; LEDGER],
        (0..LEDGER).map(one_operation).collect(),
    ];
    let mut cases = vec![];
    for ledger in ledgers {
        let mut records = Records::fresh();
        records.ledger = ledger;
        records.tally = Tally {
            admitted: std::array::from_fn(|user| 5 * user as u32),
            declined: std::array::from_fn(|user| 7 * user as u32),
            dropped: std::array::from_fn(|user| 9 * user as u32),
        };
        cases.push(Call::ask(user, plan.to_vec()).with(book, &records));
        for place in 1..7 {
            records.holds.users[place] = user + place as u32 % 3;
            records.holds.numbers[place] = 3;
            records.holds.words_of_mut(place)[place] = u64::MAX;
        }
        let acts = [Act::Ask(plan.to_vec()), Act::Commit(3), Act::Drop(3)];
        cases.extend(acts.map(|act| Call { user, act }.with(book, &records)));
    }
    cases
}

fn idle(draft: &Draft, rule: u32) -> Case {
    Case::Idle {
        book: draft.bytes(),
        rule,
        buffer: vec![7; 36],
    }
}

fn blocked(draft: &Draft, rule: u32) -> Case {
    Case::Blocked {
        book: draft.bytes(),
        rule,
    }
}

fn culprits(draft: &Draft, rule: u32) -> Case {
    Case::Culprits {
        book: draft.bytes(),
        rule,
    }
}

/// What is to be found of a rule of a hard book. The last leaf of group g is 3 + 20 × g.
fn wanted(draft: &Draft, rule: usize, found: Found) -> Answer {
    let datum = |group: u8| Datum {
        action: Action::Condition,
        leaf: 3 + 20 * usize::from(group),
    };
    let references = draft.rules[rule].references.iter();
    let data: Vec<Datum> = references.map(|r| datum(r.category)).collect();
    match found {
        Found::LastOfAll if rule == 31 => Answer::Refused(second::Refusal::of(26)),
        Found::LastOfAll => Answer::Closed(packed(31, &data)),
        Found::Open => Answer::Open,
    }
}

fn assert_alike(case: &Case) {
    let engines = USUAL.map(|name| by_name(name).expect("it is there"));
    if let Err(difference) = compare([engines[0].as_ref(), engines[1].as_ref()], case) {
        panic!("{difference}");
    }
}

/// Rules that are needed for a choice late in the order: both show the same one. The second
/// implementation takes a second or so for each when optimized.
#[cfg(all(feature = "engine", not(debug_assertions)))]
#[test]
fn late_choices() {
    use against::engine::{Proved, Search, Second};
    let second = Second {
        search: Search::Skipping(20_000_000),
    };
    for draft in named::late() {
        match compare([&Proved, &second], &idle(&draft, 0)) {
            Ok(answers) => {
                println!("{}", answers[1]);
                assert!(matches!(answers[1], Answer::Needed(..)), "{}", answers[1]);
            }
            Err(difference) => panic!("{difference}"),
        }
    }
}

#[test]
fn named_books() {
    for (_, draft, _) in named::all() {
        cases(&draft).iter().for_each(assert_alike);
    }
    let deep = [
        named::chain(),
        named::withdrawing_chain(),
        named::withdrawing_flat(),
    ];
    deep.iter()
        .flat_map(cases)
        .for_each(|case| assert_alike(&case));
    let others = [named::small_shop(), named::middling(), named::largest()];
    for draft in others.into_iter().chain(deep) {
        for rule in 0..draft.rules.len() as u32 {
            assert_alike(&idle(&draft, rule));
            assert_alike(&blocked(&draft, rule));
            assert_alike(&culprits(&draft, rule));
        }
    }
}

/// The searches that the second implementation gives up on.
#[cfg(feature = "engine")]
#[test]
fn hard_rules_are_idle() {
    use against::answer;
    for (name, draft, rule) in named::all() {
        if name.starts_with("hard") {
            let mut case = idle(&draft, rule);
            let answer = answer::of(&against::engine::Proved, &mut case);
            assert_eq!(answer, Answer::Idle, "{name}");
            assert_eq!(case, idle(&draft, rule), "{name}");
        }
    }
}

/// The engine shows of the needed ones what their books were made for, and leaves the rest of the
/// buffer.
#[cfg(feature = "engine")]
#[test]
fn hard_rules_are_needed() {
    for needed in books::needed::hard() {
        let mut case = idle(&needed.draft, 0);
        let answer = against::answer::of(&against::engine::Proved, &mut case);
        let rows = needed.plan.len() as u32;
        assert_eq!(answer, Answer::Needed(needed.user, rows), "{}", needed.name);
        let mut buffer = needed.plan.concat();
        buffer.resize(36, 7);
        let wanted = Case::Idle {
            book: needed.draft.bytes(),
            rule: 0,
            buffer,
        };
        assert_eq!(case, wanted, "{}", needed.name);
    }
}

/// The second implementation finds in the hard books what they were made for, where it does not give up.
#[test]
fn hard_books_are_as_meant() {
    use against::engine::{Search, Second};
    let second = Second {
        search: Search::Skipping(100_000),
    };
    let mut searched = 0;
    for (name, draft, found) in hard() {
        for rule in [0, 26, 31] {
            let answer = against::answer::of(&second, &mut blocked(&draft, rule));
            if answer != Answer::GaveUp {
                let wanted = wanted(&draft, rule as usize, found);
                assert_eq!(answer, wanted, "{name}, rule {rule}");
                searched += 1;
            }
        }
    }
    assert!(searched > 20, "{searched} are searched to the end");
}

/// The engine does, for every rule.
#[cfg(all(feature = "engine", not(debug_assertions)))]
#[test]
fn hard_data_are_open_or_closed() {
    for (name, draft, found) in hard() {
        for rule in 0..32 {
            let wanted = wanted(&draft, rule as usize, found);
            let answer = against::answer::of(&against::engine::Proved, &mut blocked(&draft, rule));
            assert_eq!(answer, wanted, "{name}, rule {rule}");
        }
    }
}

/// Behind the block of a rule of a hard book is the rule that forbids. Of those that are open one is enough,
/// as Culprits then does what Blocked does.
#[cfg(all(feature = "engine", not(debug_assertions)))]
#[test]
fn hard_data_have_one_rule_behind_them() {
    for (name, draft, found) in hard() {
        let rules = match found {
            Found::LastOfAll => 0..32,
            Found::Open => 30..31,
        };
        for rule in rules {
            let wanted = match wanted(&draft, rule as usize, found) {
                Answer::Open => Answer::Unblocked,
                Answer::Closed(_) => Answer::Few(1 << 31 | 1 << rule),
                refused => refused,
            };
            let answer = against::answer::of(&against::engine::Proved, &mut culprits(&draft, rule));
            assert_eq!(answer, wanted, "{name}, rule {rule}");
        }
    }
}

/// Both engines leave the rules that each hard book was made for.
#[test]
fn hard_blocks_are_as_meant() {
    let engines = ["second", "engine"].into_iter().filter_map(by_name);
    for engine in engines {
        for book in books::culprits::hard() {
            let said = engine.culprits(&book.draft.bytes(), book.rule);
            let wanted = with_asking(book.others, book.rule);
            assert_eq!(said, Some(Ok(wanted)), "{}, {}", engine.name(), book.name);
        }
    }
}

/// Whichever of the 32 rules is asked about, all are needed.
#[test]
fn all_are_needed_together() {
    let engines = ["second", "engine"].into_iter().filter_map(by_name);
    let together = books::culprits::hard().remove(0);
    let book = together.draft.bytes();
    for engine in engines {
        let all = |rule: &u32| engine.culprits(&book, *rule) == Some(Ok(u32::MAX));
        assert_eq!((0..32).filter(all).count(), 32, "{}", engine.name());
    }
}

/// A call of Tree with the small shop, and eight bytes after the buffer.
fn tree(plan: &[[u8; 4]], row: u32, lent: usize) -> Tree {
    Tree {
        book: named::small_shop().bytes(),
        plan: plan.concat(),
        row,
        lent,
        memory: vec![7; lent + 8],
    }
}

/// The lengths of buffers about that of a text.
fn about(bytes: u128) -> [usize; 6] {
    let bytes = bytes.min(ROOM as u128) as usize;
    [0, 9, bytes - 1, bytes, bytes + 1, ROOM]
}

/// Every row of the named plans, and the first numbers past them.
#[test]
fn named_plans() {
    for named in trees::named() {
        let extents = extents(&named.plan.concat());
        for row in (0..=64).chain([255, 256, 256 + named.row, u32::MAX]) {
            let extent = extents.get(row as usize).copied().flatten();
            for lent in about(extent.map_or(9, |extent| extent.bytes)) {
                assert_alike(&Case::Tree(tree(&named.plan, row, lent)));
            }
        }
    }
}

/// Every engine gives up above 4,096 nodes, and says how many there are of what it writes.
#[test]
fn nodes_of_named_plans() {
    let engines = ["second", "engine"].into_iter().filter_map(by_name);
    for engine in engines {
        for named in trees::named() {
            let said = engine.tree(&mut tree(&named.plan, named.row, ROOM));
            let wanted = match named.nodes {
                0..=MOST => Ok(named.nodes as u32),
                _ => Err(second::Refusal::of(30)),
            };
            let nodes = said.map(|value| nodes_and_length(value).0);
            assert_eq!(nodes, wanted, "{}, {}", engine.name(), named.name);
        }
    }
}
