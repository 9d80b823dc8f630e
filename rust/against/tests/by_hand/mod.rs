//! Books of the small shop's kind, and answers for each of their rules.

use against::engine::{by_name, Engine};
use books::draft::{Draft, Rule};
use books::named::small_shop;
use second::Refusal;

/// What a call answers for a rule: its value, or why it is refused.
pub type Answer = Result<u32, Refusal>;

/// The small shop with these rules alone.
pub fn shop_of(rules: &[Rule]) -> Draft {
    Draft {
        rules: rules.to_vec(),
        ..small_shop()
    }
}

pub fn refused(number: u32) -> Answer {
    Err(Refusal { number, place: 0 })
}

/// Every engine answers so for rules 0, 1 and so on.
pub fn each_answers(
    draft: &Draft,
    wanted: &[Answer],
    call: impl Fn(&dyn Engine, &[u8], u32) -> Option<Answer>,
) {
    let engines = ["second", "naive", "engine"]
        .into_iter()
        .filter_map(by_name);
    let book = draft.bytes();
    for engine in engines {
        for (rule, answer) in (0..).zip(wanted) {
            let said = call(&*engine, &book, rule);
            assert_eq!(said, Some(*answer), "{}, rule {rule}", engine.name());
        }
    }
}
