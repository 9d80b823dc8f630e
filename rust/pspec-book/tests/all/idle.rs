//! Why rules are idle, on random books.

use crate::common::numbered;
use books::valid::{self, Size};
use books::Random;
use pspec_book::covering::{idle_beside, why_idle, WhyIdle};

/// The rules named cover the rule, and without any one of them they don't.
#[test]
fn no_rule_of_the_set_can_be_left_out() {
    let mut sets = [0; 3];
    for seed in 0..600 {
        let mut random = Random::new(seed);
        let size = [Size::Tiny, Size::Small, Size::Middle][seed as usize % 3];
        let book = numbered(valid::draft(&mut random, size).bytes()).book;
        for r in 0..book.rule_count() as usize {
            if !book.idle(r as u32).expect("it is a rule").is_idle() {
                continue;
            }
            let idle = |others: &[usize]| idle_beside(&book, r, others).expect("it is a book");
            let WhyIdle::Covered(rules) = why_idle(&book, r).expect("it is a book") else {
                assert!(idle(&[]));
                sets[0] += 1;
                continue;
            };
            assert!(!rules.is_empty() && !rules.contains(&r) && idle(&rules));
            for out in &rules {
                let fewer: Vec<usize> = rules.iter().copied().filter(|o| o != out).collect();
                assert!(!idle(&fewer));
            }
            sets[if rules.len() == 1 { 1 } else { 2 }] += 1;
        }
    }
    assert!(sets.iter().all(|&count| count > 10), "{sets:?}");
}
