//! Withdrawn operations (document 02, N9) on a small book whose answers were worked out by hand, each beside
//! its rules.
//!
//! The book of addresses throughout: users 1 and 2; Address owns truncate, Street under it withdraws it; leaves
//! 3 House and 4 Lane under Street, of which House owns truncate again, and 5 City under Address. So House and
//! City can be had raw and truncated, Lane raw alone. Columns 0, 1 and 2 carry them, function 1 truncates.

mod by_hand;

use against::engine::by_name;
use books::addresses::{book, ADDRESS, CITY, EVERYTHING, HOUSE, LANE, STREET, TRUNCATE};
use books::draft::{Draft, Rule, ACCESS, CONDITION, PROJECTION};
use books::named::opposed_shop;
use books::shop::{rule, ANALYST, AVG, MARKETING, SUM};
use by_hand::{each_answers, refused, shop_of, Answer};
use second::Refusal;

const OPEN: Answer = Ok(0);

/// Every address must be truncated.
fn truncated() -> Rule {
    rule(ANALYST, &[(ACCESS, ADDRESS)], &[&[TRUNCATE]])
}

/// The same book as if nothing were withdrawn.
fn kept(draft: &Draft) -> Draft {
    Draft {
        withdrawn: None,
        ..draft.clone()
    }
}

/// Rule 0 asks that addresses be truncated: closed at Lane, put out, to user 1. Rule 1 takes streets as
/// conditions as they are, and is closed by rule 0 there. Rule 2 is about houses, rule 3 about cities.
#[test]
fn open_operations() {
    let draft = book(&[
        truncated(),
        rule(ANALYST, &[(CONDITION, STREET)], &[&[0]]),
        rule(ANALYST, &[(ACCESS, HOUSE)], &[&[TRUNCATE]]),
        rule(MARKETING, &[(ACCESS, CITY)], &[&[0]]),
    ]);
    let put_out = Ok(0x0100_0080 + u32::from(LANE));
    let decides = Ok(0x0100_00C0 + u32::from(LANE));
    let wanted = [put_out, decides, OPEN, OPEN, refused(24)];
    each_answers(&draft, &wanted, |engine, book, rule| {
        engine.blocked(book, rule)
    });
    let few = [Ok(0b1), Ok(0b11), OPEN, OPEN, refused(24)];
    each_answers(&draft, &few, |engine, book, rule| {
        engine.culprits(book, rule)
    });
    each_answers(&kept(&draft), &[OPEN; 4], |engine, book, rule| {
        engine.blocked(book, rule)
    });
}

/// Rule 0 asks for a truncated city beside a street. It is open by itself, and beside rule 1, which asks that
/// the street be truncated too, closed at the first lane.
#[test]
fn two_references() {
    let both = [(PROJECTION, CITY), (PROJECTION, STREET)];
    let first = rule(ANALYST, &both, &[&[TRUNCATE, 0]]);
    let draft = book(&[first, truncated()]);
    let [city, lane] = [CITY, LANE].map(u32::from);
    let closed = Ok(0x0100_0000 + 256 * (128 + lane) + 128 + city);
    each_answers(&draft, &[closed], |engine, book, rule| {
        engine.blocked(book, rule)
    });
    each_answers(&draft.with_rules(&[0]), &[OPEN], |engine, book, rule| {
        engine.blocked(book, rule)
    });
}

/// The small shop with a rule 3 that opposes rule 1, but the root owns avg and sum, and Address withdraws them:
/// State, City and Price support what they do in the shop. So Blocked answers as there: for Report whatever
/// holds a price is closed.
#[test]
fn the_shop_written_otherwise() {
    let mut shop = shop_of(&opposed_shop().rules);
    (shop.data[0].1, shop.data[4].1) = (AVG | SUM, 0);
    shop.withdrawn = Some(vec![0, AVG | SUM, 0, 0, 0]);
    let [both, price] = [Ok(0x0100_8482), Ok(0x0100_0084)];
    let wanted = [both, price, both, price, refused(24)];
    each_answers(&shop, &wanted, |engine, book, rule| {
        engine.blocked(book, rule)
    });
    let few = [Ok(0b1011), Ok(0b1010), Ok(0b1100), Ok(0b1010)];
    each_answers(&shop, &few, |engine, book, rule| {
        engine.culprits(book, rule)
    });
}

/// A mask may name truncate for Address, House and City, and for no other; with nothing withdrawn for all but
/// the root.
#[test]
fn mask_checks() {
    let engines = ["second", "engine"].into_iter().filter_map(by_name);
    for engine in engines {
        for category in [EVERYTHING, ADDRESS, STREET, HOUSE, LANE, CITY] {
            let asks = rule(ANALYST, &[(ACCESS, category)], &[&[TRUNCATE]]);
            let draft = book(&[asks]);
            let no_mask: Result<u32, Refusal> = Err(Refusal::at(9, 4));
            let said = engine.check(&draft.bytes());
            let supports = [ADDRESS, HOUSE, CITY].contains(&category);
            assert_eq!(said, if supports { Ok(1) } else { no_mask });
            let said = engine.check(&kept(&draft).bytes());
            let supports = category != EVERYTHING;
            assert_eq!(said, if supports { Ok(1) } else { no_mask });
        }
    }
}

/// Every engine shows this plan of user 1 for rule 0, or that it is idle.
fn shows(draft: &Draft, plan: Option<&[[u8; 4]]>) {
    let engines = ["second", "naive", "engine"];
    for engine in engines.into_iter().filter_map(by_name) {
        let mut buffer = [9; 36];
        let said = engine.idle(&draft.bytes(), 0, &mut buffer);
        let rows = plan.map(|plan| (1, plan.len() as u32));
        assert_eq!(said, Some(Ok(rows)), "{}", engine.name());
        let mut wanted = plan.map_or(vec![], |plan| plan.concat());
        wanted.resize(36, 9);
        assert_eq!(buffer[..], wanted, "{}", engine.name());
    }
}

/// Rule 0 forbids streets, and rule 1 asks that addresses be truncated: a truncated house breaks rule 0 alone.
/// Without houses it is idle, as a lane is never truncated; with nothing withdrawn, a truncated lane shows it.
#[test]
fn shown_plans() {
    let forbidden = rule(ANALYST, &[(ACCESS, STREET)], &[]);
    let mut draft = book(&[forbidden, truncated()]);
    let of = |column: u8| [[1, column, 0, 0], [2, 1, 0, 255], [4, 1, 0, 0]];
    shows(&draft, Some(&of(0)));
    draft.columns[0] = 255;
    shows(&draft, None);
    shows(&kept(&draft), Some(&of(1)));
}

/// House, Lane and City, each truncated and put out, and Lane truncated as a condition: bit 3 and bit 5 of word
/// 1, bit 4 of word 0, bit 4 of word 16.
#[test]
fn lineage() {
    let mut rows: Vec<[u8; 4]> = Vec::new();
    for column in 0..3 {
        let first = rows.len() as u8;
        rows.extend([[1, column, 0, 0], [2, 1, first, 255], [4, first + 1, 0, 0]]);
    }
    rows.push([5, 4, 0, 0]);
    let draft = book(&[truncated()]);
    let words_of = |at: &[(usize, u8)]| {
        let mut words = [0; 32];
        at.iter().for_each(|&(word, leaf)| words[word] |= 1 << leaf);
        words
    };
    let right = words_of(&[(1, HOUSE), (1, CITY), (0, LANE), (16, LANE)]);
    let all = words_of(&[(1, HOUSE), (1, CITY), (1, LANE), (17, LANE)]);
    for engine in ["second", "engine"].into_iter().filter_map(by_name) {
        for (draft, wanted, broken) in [(&draft, right, 1), (&kept(&draft), all, 0)] {
            let mut words = [7; 32];
            let book = draft.bytes();
            let said = engine.flows(&book, &rows.concat(), &mut words);
            assert_eq!((said, words), (Ok(()), wanted), "{}", engine.name());
            assert_eq!(engine.judge(&book, 2, &rows.concat()), Ok(broken));
        }
    }
}
