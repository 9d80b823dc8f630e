//! Damaged texts are refused or read, and never stop the program.

use crate::common::numbered;
use books::valid::{self, Size};
use books::Random;
use pspec_book::names::Names;
use pspec_book::{build, plan, policy, show};

const PIECES: [&str; 16] = [
    "", " ", "\n", "  ", "\t", ",", "[", "]", "{", "}", "=>", "#", "under", "exclude", "255", "é",
];

/// A text with a stretch of it replaced by a piece, or by another stretch.
fn damaged(random: &mut Random, text: &str) -> String {
    let mut chars: Vec<char> = text.chars().collect();
    for _ in 0..random.between(1, 4) {
        let start = random.below(chars.len());
        let end = chars.len().min(start + random.below(12));
        let from = random.below(chars.len());
        let to = chars.len().min(from + random.below(40));
        let piece: Vec<char> = match random.below(3) {
            0 => chars[from..to].to_vec(),
            _ => random.one(&PIECES).chars().collect(),
        };
        chars.splice(start..end, piece);
    }
    chars.into_iter().collect()
}

#[test]
fn damaged_policies() {
    let mut accepted = 0;
    for seed in 0..2000 {
        let mut random = Random::new(seed);
        let named = numbered(valid::draft(&mut random, Size::Small).bytes());
        let text = damaged(&mut random, &show::text(&named.contents, &named.names));
        let built = policy::read(&text).and_then(|policy| build::book(&policy));
        match built {
            Ok(_) => accepted += 1,
            Err(mistakes) => {
                let lines = 1..=text.lines().count().max(1);
                assert!(mistakes.iter().all(|mistake| lines.contains(&mistake.line)));
            }
        }
    }
    assert!(accepted > 20, "{accepted} are still policies");
}

#[test]
fn damaged_names_and_plans() {
    let plan = "0 = column column0\n1 = function0(0)\nchoose 0 ? 0 : 1\nwhere 1\noutput 2\n";
    for seed in 0..2000 {
        let mut random = Random::new(seed);
        let named = numbered(valid::draft(&mut random, Size::Tiny).bytes());
        let text = damaged(&mut random, &named.names.text(&named.book));
        if let Ok(names) = Names::read(&text, &named.book) {
            show::text(&named.contents, &names);
        }
        if let Ok(plan) = plan::read(&damaged(&mut random, plan), &named) {
            assert_eq!(plan.plan.bytes().len(), 4 * plan.lines.len());
        }
    }
}
