//! The page for the data owner.

use crate::common::{built, numbered, text};
use books::valid::{self, Size};
use books::Random;
use pspec_book::named::NamedBook;
use pspec_book::{blocked, html, report, words};

fn page(named: &NamedBook) -> String {
    let reports = report::each(named, |_| Ok(())).expect("it is reported");
    html::page("a & b.book", named, &reports)
}

/// The page on the blocked rules.
fn blocked_page(named: &NamedBook) -> String {
    let rules = blocked::each(named).expect("it is a book");
    html::blocked("a & b.book", named, &rules)
}

#[test]
fn the_small_shop() {
    let page = page(&built(&text("examples/small-shop.pspec")));
    for said in [
        "<title>Policy report: a &amp; b.book</title>",
        "<p>3 rules: 1 needed, 2 idle.</p>",
        "<p>Every user of Analyst may put out Address and Price in one query only with Price under \
         avg or sum.</p>",
        "<p><code>Analyst, [access Price] =&gt; [{avg}]</code></p>",
        "<p>Needed: without it a query of Report would pass that puts out Price. \
         No other rule stops it.</p>",
        "<p>Idle: whoever breaks it breaks rule 1 too.</p>",
        ">Price [avg, sum] <tspan class=\"note\">price</tspan></text>",
    ] {
        assert!(page.contains(said), "{said}\n{page}");
    }
}

/// Each tag is closed by its like, nothing runs and nothing is loaded.
fn is_sound(page: &str) {
    let mut open: Vec<&str> = Vec::new();
    for part in page.split('<').skip(1) {
        let tag = &part[..part.find('>').expect("a tag ends")];
        let name = tag.split([' ', '\n']).next().expect("it has a name");
        match name.strip_prefix('/') {
            Some(name) => assert_eq!(open.pop(), Some(name)),
            None if tag.ends_with('/') || ["!DOCTYPE", "meta"].contains(&name) => (),
            None => open.push(name),
        }
    }
    assert!(open.is_empty(), "{open:?}");
    for outside in [
        "<script", "<link", "<img", "src=", "href=", "url(", "http", "@import",
    ] {
        assert!(!page.contains(outside), "{outside}");
    }
}

#[test]
fn every_page_is_sound_and_complete() {
    is_sound(&page(&built(&text("examples/tpc-ds.pspec"))));
    for seed in 0..60 {
        let mut random = Random::new(seed);
        let size = [Size::Tiny, Size::Small, Size::Large][seed as usize % 3];
        let named = numbered(valid::draft(&mut random, size).bytes());
        for page in [page(&named), blocked_page(&named)] {
            is_sound(&page);
            let count = |what: &str| page.matches(what).count();
            assert_eq!(count("<section "), named.contents.rules.len());
            let categories = named.contents.users.len() + named.contents.data.len();
            assert_eq!(count("<circle "), categories);
            assert_eq!(count("<path "), categories - 2);
        }
    }
}

/// A book with one rule.
fn with_rule(rule: &str) -> NamedBook {
    built(&format!(
        "users\n  Staff\n    Report\n    Guest\ndata\n  All [count]\n    Name\n    Age [range]\n\
         rules\n  {rule}\n"
    ))
}

/// The sentence of a rule.
fn sentence(rule: &str) -> String {
    let named = with_rule(rule);
    words::rule(&named.contents.rules[0], &named)
}

/// What a rule does to data that it helps to close.
#[test]
fn what_closes_data() {
    for (rule, said) in [
        (
            "Report, [access Name, projection Age] => forbid",
            "forbids access Name with projection Age",
        ),
        (
            "Report, [condition All exclude Age, Name] => forbid",
            "forbids condition All exclude Age, Name",
        ),
        ("Staff, [access Age] => [{range}]", "asks for range of Age"),
        (
            "Staff exclude Guest, [condition All exclude Age, access Age] => [{}, {range, count}]",
            "asks for count or range of Age",
        ),
        (
            "Report, [projection Age, access Name] => [{range, count}, {count}]",
            "asks for count or range of Age and count of Name",
        ),
        (
            "Report, [projection Age, access Name] => [{range}, {count}] or [{}, {count}] or [{count}, {}]",
            "asks for range of Age and count of Name, or for count of Name, or for count of Age",
        ),
        ("Staff, [access Age] => [{}]", ""),
        ("Staff, [access Age] => [{range}] or [{}]", ""),
    ] {
        let named = with_rule(rule);
        let closing = words::closing(&named.contents.rules[0], &named.names);
        assert_eq!(closing.words().unwrap_or_default(), said);
    }
}

#[test]
fn rules_as_sentences() {
    for (rule, said) in [
        (
            "Report, [access Name] => forbid",
            "Report may not use Name.",
        ),
        (
            "Staff exclude Guest, [condition All exclude Age] => forbid",
            "No user of Staff (without Guest) may decide by All (without Age).",
        ),
        (
            "Staff, [projection Age, condition Name] => [{range, count}, {count}] or [{}, {count}]",
            "Every user of Staff may put out Age and decide by Name in one query only \
             with Age under count or range and with Name under count, or with Name under count.",
        ),
        (
            "Report, [access Age] => [{range}] or [{count}]",
            "Report may use Age only under range, or under count.",
        ),
        (
            "Staff, [access Age] => [{range}] or [{}]",
            "Every user of Staff may use Age in any way.",
        ),
    ] {
        assert_eq!(sentence(rule), said);
    }
}
