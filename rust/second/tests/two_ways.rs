//! Where there are two ways to an answer, both give it, on small random books.

use books::valid::{draft, Size};
use books::{plans, trees, Random};
use second::access::Access;
use second::book::Book;
use second::path::Applied;
use second::plan::Row;
use second::{blocked, breaking, choice, culprits, idle, path, plan, reading, tree};
use std::collections::BTreeSet;
use std::fmt::Debug;

/// The paths from all rows of a plan on which an Apply with two rows ends what counts: how often
/// one of the label's operations stands below it, and how often one stands above it only.
fn mixed(book: &Book, rows: &[Row]) -> [usize; 2] {
    let [mut below, mut above] = [0, 0];
    for path in (0..rows.len()).flat_map(|row| path::paths(rows, row)) {
        let lowest = path.applied.iter().position(|a| *a == Applied::TwoRows);
        let (Some(leaf), Some(lowest)) = (book.columns[path.column], lowest) else {
            continue;
        };
        let takes = |applied: &Applied| match *applied {
            Applied::OneRow(function) => book.supported[leaf].contains(&book.functions[function]),
            Applied::TwoRows => false,
        };
        let counts = path.applied[..lowest].iter().any(takes);
        below += usize::from(counts);
        above += usize::from(!counts && path.applied[lowest..].iter().any(takes));
    }
    [below, above]
}

#[test]
fn accesses_by_paths_and_by_rows() {
    let mut random = Random::new(11);
    let [mut compared, mut below, mut above] = [0; 3];
    for _ in 0..1_500 {
        let draft = draft(&mut random, Size::Tiny);
        let book = reading::read(&draft.bytes()).expect("the draft is sound");
        let mut bytes = plans::sound(&mut random, &draft);
        bytes.truncate(4 * 12);
        let rows = plan::read(&bytes, &book).expect("the plan is sound");
        let by_paths = path::accesses_by_paths(&book, &rows);
        assert_eq!(by_paths, path::accesses_by_rows(&book, &rows));
        assert_eq!(by_paths, path::accesses(&book, &rows));
        compared += by_paths.len();
        let counts = mixed(&book, &rows);
        below += usize::from(counts[0] > 0);
        above += usize::from(counts[1] > 0);
    }
    println!("{compared} accesses; operations below a mix in {below} plans, above in {above}");
    assert!(compared > 1_000 && below > 50 && above > 50);
}

/// The lines of each row's tree, row by row: its own, and those of its children two spaces further in. A
/// row with more than so many has none.
fn lines_from_below(plan: &[u8], most: usize) -> Vec<Option<Vec<String>>> {
    let mut all: Vec<Option<Vec<String>>> = Vec::new();
    for row in plan.chunks(4) {
        let (word, children): (&str, &[u8]) = match *row {
            [1, ..] => ("column", &[]),
            [2, .., 255] => ("apply", &row[2..3]),
            [2, ..] => ("apply", &row[2..]),
            [3, ..] => ("choose", &row[1..]),
            _ => ("", &[]),
        };
        let own = vec![format!("{} {word}\n", all.len())];
        let lines = children.iter().try_fold(own, |mut lines, &child| {
            let lower = all[usize::from(child)].as_ref()?;
            lines.extend(lower.iter().map(|line| format!("  {line}")));
            (lines.len() <= most).then_some(lines)
        });
        all.push(lines.filter(|_| !word.is_empty()));
    }
    all
}

/// And they are as many as was counted before, and at most 3 to the power (i + 1).
#[test]
fn trees_by_nodes_and_from_below() {
    let mut random = Random::new(18);
    let [mut compared, mut large] = [0, 0];
    for i in 0..300 {
        let draft = draft(&mut random, Size::Tiny);
        let book = reading::read(&draft.bytes()).expect("the draft is sound");
        let bytes = match i % 3 {
            0 => plans::sound(&mut random, &draft),
            _ => trees::grown(&mut random, &draft, 2 * i + 3_800),
        };
        let rows = plan::read(&bytes, &book).expect("the plan is sound");
        let counts = tree::counts(&rows);
        for (row, lines) in lines_from_below(&bytes, 4_096).into_iter().enumerate() {
            let count = counts[row];
            assert!(count <= Some(3u128.pow(row as u32 + 1)));
            let Some(lines) = lines else {
                large += usize::from(count.is_some());
                assert!(count.is_none() || count > Some(tree::MOST));
                continue;
            };
            assert_eq!(count, Some(lines.len() as u128));
            let node = tree::of(&rows, row).expect("it is a value row");
            assert_eq!(node.text(), lines.concat());
            compared += 1;
        }
    }
    println!("{compared} trees, {large} too large");
    assert!(compared > 1_000 && large > 100);
}

/// Tries every rule of so many random books that has few choices.
fn each_rule(seed: u64, size: Size, books: usize, mut try_rule: impl FnMut(&Book, usize)) {
    let mut random = Random::new(seed);
    for _ in 0..books {
        let draft = draft(&mut random, size);
        let book = reading::read(&draft.bytes()).expect("the draft is sound");
        let few = |&rule: &usize| idle::choices(&book, rule) <= 2_000;
        let rules = (0..book.rules.len()).filter(few);
        rules.for_each(|rule| try_rule(&book, rule));
    }
}

/// Compares two searches: how often they find something, and how often nothing.
fn compared<T: PartialEq + Debug>(
    seed: u64,
    books: usize,
    naive: impl Fn(&Book, usize) -> Option<T>,
    within: impl Fn(&Book, usize, u64) -> Option<Option<T>>,
) -> [usize; 2] {
    let [mut found, mut none] = [0, 0];
    each_rule(seed, Size::Tiny, books, |book, rule| {
        let naive = naive(book, rule);
        found += usize::from(naive.is_some());
        none += usize::from(naive.is_none());
        assert_eq!(within(book, rule, u64::MAX), Some(naive));
    });
    [found, none]
}

#[test]
fn idle_naive_and_pruned() {
    let [needed, idle] = compared(12, 600, idle::naive, idle::within);
    assert!(needed > 100 && idle > 100, "{needed} needed, {idle} idle");
}

/// The choices for a user that break a rule alone, in document 01's order.
fn alone(book: &Book, rule: usize, user: usize) -> Vec<Vec<Access>> {
    let candidates = choice::fitting(&book.rules[rule], &book.obtainable());
    let mut found = Vec::new();
    choice::first(&candidates, &mut |choice: &[Access]| {
        let accesses = choice.iter().copied().collect();
        if breaking::breaks_alone(book, user, rule, &accesses) {
            found.push(choice.to_vec());
        }
        false
    });
    found
}

/// What was shown before document 02's N2: the first choice in document 01's order alone.
fn shown_before(book: &Book, rule: usize) -> idle::Found {
    let mut users = book.users.leaves().into_iter();
    users.find_map(|user| {
        let first = alone(book, rule, user).into_iter().next();
        first.map(|choice| (user, choice))
    })
}

/// "Which rules are idle is unaffected", nor is the user; the plan is another where one with fewer
/// functions comes later in document 01's order. "Equal ones fall back to document 01's order."
#[test]
fn idle_in_both_orders() {
    let [mut idle, mut needed, mut changed, mut ties] = [0; 4];
    each_rule(15, Size::Tiny, 3_000, |book, rule| {
        let before = shown_before(book, rule);
        let now = idle::naive(book, rule);
        assert_eq!(before.is_some(), now.is_some());
        let (Some((user, first)), Some((same_user, choice))) = (before, now) else {
            idle += 1;
            return;
        };
        assert_eq!(user, same_user);
        needed += 1;
        let fewest = idle::functions(&choice);
        assert_eq!(fewest < idle::functions(&first), choice != first);
        changed += usize::from(choice != first);
        let mut equal = alone(book, rule, user);
        equal.retain(|other| idle::functions(other) <= fewest);
        assert_eq!(equal[0], choice);
        ties += usize::from(choice != first && equal.len() > 1);
    });
    println!("{idle} idle, {needed} needed, {changed} with another plan, {ties} one of several");
    assert!(idle > 100 && changed > 50 && ties > 20);
}

/// A rule has as many choices of operations here as it has choices for Idle.
#[test]
fn blocked_naive_and_pruned() {
    let [closed, open] = compared(14, 1_000, blocked::naive, blocked::within);
    assert!(closed > 100 && open > 100, "{closed} closed, {open} open");
}

#[test]
fn culprits_naive_and_sooner() {
    let [few, unblocked] = compared(16, 1_000, culprits::naive, culprits::within);
    assert!(few > 100 && unblocked > 100, "{few}, {unblocked} unblocked");
}

/// All sets of the rules of a book, by rising masks.
fn sets_of_rules(book: &Book) -> impl Iterator<Item = BTreeSet<usize>> {
    let rules = |mask: u32| (0..32).filter(|r| mask >> r & 1 == 1).collect();
    (0..1 << book.rules.len()).map(rules)
}

/// As more rules close no less, what is left by trial is also the least of all masks of other rules
/// that do it. And it is as few as can be: "every proper subset of them leaves it open".
#[test]
fn culprits_by_trial_and_by_masks() {
    let mut counts = [0; 4];
    each_rule(17, Size::Small, 800, |book, rule| {
        let Some((user, association)) = blocked::naive(book, rule) else {
            return assert_eq!(culprits::naive(book, rule), None);
        };
        let closed = |others: &BTreeSet<usize>| {
            let together = others | &BTreeSet::from([rule]);
            !blocked::opens(book, &together, user, &association)
        };
        let mut others = sets_of_rules(book).filter(|set| !set.contains(&rule));
        let least = others.find(closed).expect("all of them do it");
        assert_eq!(culprits::naive(book, rule), Some(least.clone()));
        let mut proper = sets_of_rules(book).filter(|set| set.is_subset(&least) && *set != least);
        assert!(proper.all(|set| !closed(&set)));
        counts[least.len().min(3)] += 1;
    });
    println!("with no, one, two and more others: {counts:?}");
    assert!(counts.iter().all(|&count| count > 20), "{counts:?}");
}

#[test]
fn blocked_gives_up() {
    let book = books::named::small_shop().bytes();
    assert_eq!(second::blocked_within(&book, 0, 1), None);
    assert_eq!(
        second::blocked_within(&book, 3, 0),
        Some(second::blocked(&book, 3))
    );
}

#[test]
fn culprits_give_up_where_blocked_does() {
    let book = books::named::opposed_shop().bytes();
    assert_eq!(second::culprits_within(&book, 0, 1), None);
    assert_eq!(second::culprits_within(&book, 0, 10), Some(Ok(Some(10))));
    let past = second::culprits_within(&book, 4, 0);
    assert_eq!(past, Some(second::culprits(&book, 4)));
}

/// A search that runs out of steps says nothing and leaves the buffer.
#[test]
fn idle_gives_up() {
    let book = books::named::small_shop().bytes();
    let mut buffer = [3; 36];
    assert_eq!(second::idle_within(&book, 0, &mut buffer, 1), None);
    assert_eq!(buffer, [3; 36]);
}

/// Every sound draft is accepted, with its number of rules.
#[test]
fn sound_drafts_are_accepted() {
    let mut random = Random::new(13);
    for size in [Size::Tiny, Size::Small, Size::Middle, Size::Large] {
        for _ in 0..60 {
            let draft = draft(&mut random, size);
            let rules = draft.rules.len() as u32;
            assert_eq!(second::check(&draft.bytes()), Ok(rules), "{draft:?}");
        }
    }
}

#[test]
fn named_books_are_accepted() {
    for (name, draft, rule) in books::named::all() {
        let rules = draft.rules.len() as u32;
        assert_eq!(second::check(&draft.bytes()), Ok(rules), "{name}");
        assert!(rule < rules);
    }
}

fn needed(draft: &books::Draft) -> bool {
    let answer = second::idle_within(&draft.bytes(), 0, &mut [0; 36], 1_000_000);
    matches!(answer, Some(Ok(Some(_))))
}

/// In the book of twenty no rule alone covers rule 0, nor do the others without one of the twenty.
#[test]
fn twenty_are_needed_together() {
    let (draft, rule) = books::named::twenty();
    assert_eq!((draft.rules.len(), rule), (32, 0));
    for other in 1..32 {
        assert!(needed(&draft.with_rules(&[0, other])), "{other} covers 0");
    }
    let parts = (1..32).filter(|&r| draft.rules[r].references[0].category > 3);
    let parts: Vec<usize> = parts.collect();
    assert_eq!(parts.len(), 20);
    let group = draft.leaves_of(&draft.rules[0].references[0]);
    for part in parts {
        let rest: Vec<usize> = (0..32).filter(|&r| r != part).collect();
        let mut fewer = draft.with_rules(&rest);
        // Fewer columns, fewer choices: what is needed with them is needed with all.
        let leaf = draft.rules[part].references[0].category;
        fewer.columns.retain(|c| !group.contains(c) || *c == leaf);
        assert!(needed(&fewer), "the rest without {part} covers 0");
    }
}

/// The choices of operations that open the first association of rule 30 to the first user it covers.
fn opening(draft: &books::Draft) -> Vec<Vec<u8>> {
    let book = reading::read(&draft.bytes()).expect("it is accepted");
    let rule = &book.rules[30];
    let user = *rule.users.first().expect("it covers a user");
    let offered: Vec<Vec<Access>> = rule
        .references
        .iter()
        .map(|of| {
            let datum = blocked::data(&book, of)[0];
            let all = book.obtainable().into_iter();
            all.filter(|a| (a.action, a.leaf) == (datum.action, datum.leaf))
                .collect()
        })
        .collect();
    let mut found = Vec::new();
    choice::first(&offered, &mut |chosen: &[Access]| {
        let accesses = chosen.iter().copied().collect();
        if breaking::broken(&book, user, &accesses).is_empty() {
            found.push(chosen.iter().map(|access| access.operation).collect());
        }
        false
    });
    found
}

/// In the books that are hard to open one choice does, the last or the first of 25 pairs; in that of eight
/// classes two do.
#[test]
fn hardly_anything_opens() {
    for (name, draft, _) in books::blocked::hard() {
        let wanted = match name.as_str() {
            "pairs in turn" => vec![[15, 11, 11]],
            "eight classes" => vec![[15, 15, 14], [15, 15, 15]],
            _ => vec![[15, 15, 15]],
        };
        assert_eq!(opening(&draft), wanted, "{name}");
    }
}
