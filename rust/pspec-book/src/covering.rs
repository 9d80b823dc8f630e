//! Why a rule is idle, by asking the engine about books with rules left out.

use crate::phrases::counted_list;
use pspec::{Book, Refusal, BLOCK};

/// Why a rule is idle.
#[derive(Clone, Debug, PartialEq, Eq)]
pub enum WhyIdle {
    /// It is idle without any other rule: nothing can break it.
    Unbreakable,
    /// Whoever breaks it breaks one of these. None of them can be left out, but another set may do
    /// as well. One rule is given where one is enough.
    Covered(Vec<usize>),
}

impl WhyIdle {
    /// The rules that cover it; none where nothing can break it.
    pub fn rules(&self) -> &[usize] {
        match self {
            WhyIdle::Unbreakable => &[],
            WhyIdle::Covered(rules) => rules,
        }
    }

    /// In words, after 'idle'.
    pub fn text(&self) -> String {
        match self {
            WhyIdle::Unbreakable => "nothing can break it".to_string(),
            WhyIdle::Covered(rules) => {
                let numbers: Vec<String> = rules.iter().map(usize::to_string).collect();
                let together = if rules.len() > 1 { " together" } else { "" };
                format!("covered by {}{together}", counted_list("rule", &numbers))
            }
        }
    }
}

/// Why an idle rule of a book is idle.
pub fn why_idle(book: &Book, rule: usize) -> Result<WhyIdle, Refusal> {
    if idle_beside(book, rule, &[])? {
        return Ok(WhyIdle::Unbreakable);
    }
    let mut others: Vec<usize> = (0..book.rule_count() as usize).collect();
    others.retain(|&other| other != rule);
    for &one in &others {
        if idle_beside(book, rule, &[one])? {
            return Ok(WhyIdle::Covered(vec![one]));
        }
    }
    // What fewer rules cover, more rules cover: a rule that can't go now can't go later.
    for out in others.clone().into_iter().rev() {
        let fewer: Vec<usize> = others.iter().copied().filter(|&r| r != out).collect();
        if idle_beside(book, rule, &fewer)? {
            others = fewer;
        }
    }
    Ok(WhyIdle::Covered(others))
}

/// Is a rule idle in the book of this rule and some others?
pub fn idle_beside(book: &Book, rule: usize, others: &[usize]) -> Result<bool, Refusal> {
    let block = |r: usize| {
        let start = BLOCK * (4 + r);
        &book.bytes()[start..start + BLOCK]
    };
    let mut bytes = book.bytes()[..BLOCK * 4].to_vec();
    bytes.extend(block(rule));
    others.iter().for_each(|&other| bytes.extend(block(other)));
    Ok(Book::new(bytes)?.idle(0)?.is_idle())
}
