//! The program: which rules are blocked, as text, JSON and a page, and its exit status.

use crate::common::{built, numbered, text};
use crate::running::{folder, run, shop, text_of};
use books::valid::{self, Size};
use books::Random;
use pspec::{Blocking, Book, Causes, Datum, Refusal, BLOCK};
use pspec_book::blocked::{each, Found, RuleBlocking};
use pspec_book::named::NamedBook;
use pspec_book::words::How;
use std::fs;
use std::path::PathBuf;

/// A folder with the book `new.book`: the small shop with these rules after its own.
fn shop_and(test: &str, rules: &str) -> PathBuf {
    let folder = folder(test);
    let policy = text("examples/small-shop.pspec") + rules;
    fs::write(folder.join("new.pspec"), policy).expect("it is written");
    let (status, _, complaint) = run(&folder, &["build", "new.pspec", "-o", "new.book"]);
    assert_eq!((status, complaint.as_str()), (0, ""));
    folder
}

const SUM: &str = "  Report, [access Price] => [{sum}]\n";

const ADVICE: &str = "\
A blocked rule permits data that can't be had: whatever operations the user chooses for them, some
rule of the book is broken. The first user and data are shown; there may be others. The rules that
are named close them by themselves, so a change of the rules that opens them changes at least one of
these. It may not be enough, as other rules may close them too. A function for an operation that
none had may open them as well, and so may an operation that is no longer withdrawn.
";

#[test]
fn no_rule_of_the_shop_is_blocked() {
    let folder = shop("blocked-none");
    let said = "\
rule 0 (Analyst, [projection Address, projection Price] => [{}, {avg, sum}]): open
rule 1 (Analyst, [access Price] => [{avg}]): open
rule 2 (Report, [projection Address, projection Price] => [{}, {avg}]): open

No rule is blocked.
"
    .to_string();
    let (answer, silent) = ((0, said, String::new()), String::new());
    assert_eq!(run(&folder, &["blocked", "shop.book"]), answer);
    let with_status = run(&folder, &["blocked", "shop.book", "--exit-code"]);
    assert_eq!(with_status, answer);
    let (status, json, complaint) = run(&folder, &["blocked", "shop.book", "--json"]);
    assert_eq!((status, complaint), (0, silent));
    assert!(json.ends_with("],\"blocked\":[]}\n"), "{json}");
}

/// By rules 1 and 2 a price needs avg, by rule 3 sum. Rule 0 takes both, so it takes two others to close its
/// data; those of the last two rules have one other each.
#[test]
fn rules_that_oppose_each_other() {
    let folder = shop_and("blocked-sum", SUM);
    let said = format!(
        "\
rule 0 (Analyst, [projection Address, projection Price] => [{{}}, {{avg, sum}}]): blocked. \
Closed to Report, whatever the operations: output State, output Price
  Closed by rules 0, 1 and 3. To open them by the rules, change at least one of these: \
rule 0 asks for avg or sum of Price; rule 1 asks for avg of Price; rule 3 asks for sum of Price.
rule 1 (Analyst, [access Price] => [{{avg}}]): blocked. Closed to Report, whatever the operations: output Price
  Closed by rules 1 and 3. To open them by the rules, change at least one of these: \
rule 1 asks for avg of Price; rule 3 asks for sum of Price.
rule 2 (Report, [projection Address, projection Price] => [{{}}, {{avg}}]): blocked. \
Closed to Report, whatever the operations: output State, output Price
  Closed by rules 2 and 3. To open them by the rules, change at least one of these: \
rule 2 asks for avg of Price; rule 3 asks for sum of Price.
rule 3 (Report, [access Price] => [{{sum}}]): blocked. Closed to Report, whatever the operations: output Price
  Closed by rules 1 and 3. To open them by the rules, change at least one of these: \
rule 1 asks for avg of Price; rule 3 asks for sum of Price.

Blocked: rules 0, 1, 2 and 3.
{ADVICE}"
    );
    let silent = String::new();
    let ran = run(&folder, &["blocked", "new.book"]);
    assert_eq!(ran, (0, said.clone(), silent.clone()));
    let ran = run(&folder, &["blocked", "--exit-code", "new.book"]);
    assert_eq!(ran, (3, said, silent));
}

/// City is forbidden, so rules 0 and 2 are closed there and rule 1 is not; rule 3 forbids.
#[test]
fn a_rule_that_forbids() {
    let folder = shop_and("blocked-forbid", "  Report, [projection City] => forbid\n");
    let (status, said, _) = run(&folder, &["blocked", "new.book"]);
    let found: Vec<&str> = said.lines().filter_map(|l| l.split("): ").nth(1)).collect();
    let closed = "blocked. Closed to Report, whatever the operations: output City, output Price";
    assert_eq!(status, 0);
    assert_eq!(found, [closed, "open", closed, "forbids"]);
    let by: Vec<&str> = said.lines().filter(|l| l.starts_with("  ")).collect();
    let wanted = [
        "  Closed by rules 0 and 3. To open them by the rules, change at least one of these: \
         rule 0 asks for avg or sum of Price; rule 3 forbids projection City.",
        "  Closed by rules 2 and 3. To open them by the rules, change at least one of these: \
         rule 2 asks for avg of Price; rule 3 forbids projection City.",
    ];
    assert_eq!(by, wanted);
    assert!(said.ends_with(&format!("\nBlocked: rules 0 and 2.\n{ADVICE}")));
}

/// The lines on what closes the data of each blocked rule.
fn closing(policy: &str) -> Vec<String> {
    let named = built(policy);
    let rules = each(&named).expect("it is a book");
    let blocked = rules.iter().filter(|rule| rule.is_blocked());
    let texts = blocked.map(|rule| rule.text(&named.names));
    let second = texts.map(|text| {
        text.lines()
            .nth(1)
            .expect("it has a second line")
            .to_string()
    });
    second.collect()
}

/// Without a function for avg rules 1 and 2, which ask for it, close their data by themselves. Rule 0 would
/// take a sum; of the two that keep it closed the lower one is named.
#[test]
fn a_rule_on_its_own() {
    let policy = text("examples/small-shop.pspec").replace("  avg: avg\n", "");
    let itself = |rule: u32| {
        format!(
            "  Closed by rule {rule} on its own: the functions do not give what it asks for, avg of Price. \
             Add one that does, or change the rule."
        )
    };
    let by_another =
        "  Closed by rules 0 and 1. To open them by the rules, change at least one of these: \
                      rule 0 asks for avg or sum of Price; rule 1 asks for avg of Price.";
    let wanted = [by_another.to_string(), itself(1), itself(2)];
    assert_eq!(closing(&policy), wanted);
}

/// No function counts, and here none averages: neither way of rule 3 can be had.
#[test]
fn a_rule_on_its_own_with_two_ways() {
    let rule = "  Report, [projection State, condition Price] => [{count}, {}] or [{}, {avg}]\n";
    let shop = text("examples/small-shop.pspec").replace("  avg: avg\n", "");
    let policy = shop.replace("    Address\n", "    Address [count]\n") + rule;
    let wanted = "  Closed by rule 3 on its own: the functions do not give what it asks for, count of State, \
                  or avg of Price. Add one that does, or change the rule.";
    assert_eq!(closing(&policy).last().map(String::as_str), Some(wanted));
}

/// Rule 3 asks for nothing and is closed all the same: rule 4 forbids State, the first of its data. Beside
/// them rules 0 and 2 are closed there, too. Nobody can break rule 3, so only rule 4 is named.
#[test]
fn a_rule_that_asks_for_nothing() {
    let rules = "  Report, [access Address] => [{}]\n  Report, [projection State] => forbid\n";
    let policy = text("examples/small-shop.pspec") + rules;
    let wanted = [
        "  Closed by rules 0 and 4. To open them by the rules, change at least one of these: \
         rule 0 asks for avg or sum of Price; rule 4 forbids projection State.",
        "  Closed by rules 2 and 4. To open them by the rules, change at least one of these: \
         rule 2 asks for avg of Price; rule 4 forbids projection State.",
        "  Closed by rule 4. To open them by the rules, change at least this one: \
         it forbids projection State.",
    ];
    assert_eq!(closing(&policy), wanted);
    let folder = shop_and("blocked-nothing", rules);
    let (_, json, _) = run(&folder, &["blocked", "new.book", "--json"]);
    assert!(json.contains(r#""closed_by":[3,4]}"#), "{json}");
    run(&folder, &["blocked", "new.book", "--html", "new.html"]);
    let page = text_of(&folder, "new.html");
    let said =
        "some rule is broken. Closed by rule 4. To open them by the rules, change at least this \
                one: it forbids projection State.</p>";
    assert!(page.contains(said), "{page}");
}

/// The answer for scripts, rule by rule. City is forbidden by rule 4; a price that decides needs avg by
/// rule 1 and sum by rule 3.
const FOR_SCRIPTS: [&str; 5] = [
    r#"{"number":0,"rule":"Analyst, [projection Address, projection Price] => [{}, {avg, sum}]","forbids":false,"blocked":true,"user":"Report","data":[{"action":"projection","leaf":"City"},{"action":"projection","leaf":"Price"}],"closed_by":[0,4]}"#,
    r#"{"number":1,"rule":"Analyst, [access Price] => [{avg}]","forbids":false,"blocked":true,"user":"Report","data":[{"action":"condition","leaf":"Price"}],"closed_by":[1,3]}"#,
    r#"{"number":2,"rule":"Report, [projection Address, projection Price] => [{}, {avg}]","forbids":false,"blocked":true,"user":"Report","data":[{"action":"projection","leaf":"City"},{"action":"projection","leaf":"Price"}],"closed_by":[2,4]}"#,
    r#"{"number":3,"rule":"Report, [condition Price] => [{sum}]","forbids":false,"blocked":true,"user":"Report","data":[{"action":"condition","leaf":"Price"}],"closed_by":[1,3]}"#,
    r#"{"number":4,"rule":"Report, [access City] => forbid","forbids":true,"blocked":false}"#,
];

#[test]
fn for_scripts() {
    let rules = "  Report, [condition Price] => [{sum}]\n  Report, [access City] => forbid\n";
    let folder = shop_and("blocked-json", rules);
    let (status, json, _) = run(&folder, &["blocked", "new.book", "--json", "--exit-code"]);
    assert_eq!(status, 3);
    let rules = FOR_SCRIPTS.join(",");
    let wanted = format!("{{\"rules\":[{rules}],\"blocked\":[0,1,2,3]}}\n");
    assert_eq!(json, wanted);
}

#[test]
fn as_a_page() {
    let folder = shop_and("blocked-page", SUM);
    let said = run(&folder, &["blocked", "new.book", "--html", "new.html"]);
    let answer = "new.html: the report on new.book\n".to_string();
    assert_eq!(said, (0, answer, String::new()));
    let page = text_of(&folder, "new.html");
    for said in [
        "<p>4 rules: 4 blocked.</p>",
        "<span class=\"mark\">blocked</span>",
        "<p>Blocked: Report can't put out State and Price in one query. \
         Whatever the operations, some rule is broken. Closed by rules 0, 1 and 3. To open them by \
         the rules, change at least one of these: rule 0 asks for avg or sum of Price; rule 1 asks \
         for avg of Price; rule 3 asks for sum of Price.</p>",
        "<p>Blocked: Report can't put out Price. Whatever the operations, some rule is broken. \
         Closed by rules 1 and 3. To open them by the rules, change at least one of these: rule 1 \
         asks for avg of Price; rule 3 asks for sum of Price.</p>",
        "The rules that\nare named close them by themselves, so a change of the rules that opens them",
        "A function for an operation that\nnone had may open them as well, and so may an operation that \
         is no longer withdrawn.</p>",
        "which user and data come first, and which rules close them are answers of the proved engine.",
    ] {
        assert!(page.contains(said), "{said}\n{page}");
    }
    let (status, _, complaint) = run(&folder, &["blocked", "new.book", "--html", "new.book"]);
    let spared = "this was read; expected another file for the answer\n";
    assert!(status == 2 && complaint.ends_with(spared), "{complaint}");
}

/// docs/EXAMPLE.md shows what the program answers, and says what opens the TPC-DS rules.
#[test]
fn the_answers_in_the_document() {
    let document = text("docs/EXAMPLE.md");
    let shown = |book: &NamedBook| {
        let rules = each(book).expect("it is a book");
        let blocked = rules.iter().filter(|rule| rule.is_blocked());
        let lines: Vec<String> = blocked.map(|rule| rule.text(&book.names)).collect();
        assert!(document.contains(&format!("```\n{}\n```", lines.join("\n"))));
        lines.len()
    };
    assert_eq!(shown(&built(&(text("examples/small-shop.pspec") + SUM))), 4);
    let policy = text("examples/tpc-ds.pspec");
    assert_eq!(shown(&built(&policy)), 3);
    let fewer = policy.replace("[access QI, ", "[access QI exclude Name, Street, ");
    let rules = each(&built(&fewer)).expect("it is a book");
    assert!(!rules.iter().any(RuleBlocking::is_blocked));
}

#[test]
fn books_without_rules_and_refused_ones() {
    let folder = folder("blocked-refused");
    fs::write(folder.join("p.pspec"), "users\n  U\ndata\n  D\n").expect("it is written");
    run(&folder, &["build", "p.pspec", "-o", "p.book"]);
    let none = "The book has no rules.\n".to_string();
    let ran = run(&folder, &["blocked", "p.book", "--exit-code"]);
    assert_eq!(ran, (0, none, String::new()));
    fs::write(folder.join("no.book"), "no book").expect("it is written");
    let complaint = "no.book: refused 1: the book is not 4 to 36 blocks of 512 bytes\n".to_string();
    let ran = run(&folder, &["blocked", "no.book"]);
    assert_eq!(ran, (1, String::new(), complaint));
}

/// What the engine says of a rule in the book of some rules alone.
fn blocked_among(book: &Book, rule: usize, rules: &[usize]) -> Blocking {
    let block = |b: usize| &book.bytes()[BLOCK * b..BLOCK * (b + 1)];
    let blocks = (0..4).chain(rules.iter().map(|r| 4 + r));
    let bytes: Vec<u8> = blocks.flat_map(block).copied().collect();
    let place = rules.iter().position(|&r| r == rule);
    let place = place.expect("the rule is among them") as u32;
    let fewer = Book::new(bytes).expect("it is sound");
    fewer.blocked(place).expect("the rule does not forbid")
}

/// Does each restriction of a rule ask for something that can't be had of these data? It can where the
/// leaf supports it and some function has it.
fn asks_for_what_cannot_be_had(named: &NamedBook, rule: usize, data: &[Datum]) -> bool {
    let contents = &named.contents;
    let given = contents.functions.iter().fold(0, |mask, k| mask | 1 << k);
    let had = |datum: &Datum| given & contents.supported(datum.leaf);
    let mut each = contents.rules[rule].restrictions.iter();
    each.all(|masks| {
        let mut asked = masks.iter().zip(data);
        asked.any(|(&mask, datum)| mask != 0 && mask & had(datum) == 0)
    })
}

/// On random books the rules that are named close the same data by themselves; without one of the others
/// they don't. One on its own asks for what can't be had, and only the rule itself may ask for nothing.
#[test]
fn the_named_rules_close_the_data() {
    let mut counts = [0; 4];
    for seed in 0..300 {
        let size = [Size::Tiny, Size::Small][seed as usize % 2];
        let named = numbered(valid::draft(&mut Random::new(seed), size).bytes());
        for of in each(&named).expect("it is sound") {
            let Found::Closed {
                data, closed_by, ..
            } = &of.found
            else {
                continue;
            };
            let answer = named.book.blocked(of.number as u32);
            let answer = answer.expect("it is blocked");
            let rules: Vec<usize> = closed_by.iter().map(|by| by.number).collect();
            assert!(rules.is_sorted());
            let alone = asks_for_what_cannot_be_had(&named, of.number, data);
            assert_eq!(rules.len() == 1, alone);
            let nothing = closed_by.iter().filter(|by| by.how == How::Nothing);
            assert!(nothing.map(|by| by.number).all(|n| n == of.number));
            assert_eq!(blocked_among(&named.book, of.number, &rules), answer);
            for out in rules.iter().filter(|&&out| out != of.number) {
                let fewer: Vec<usize> = rules.iter().copied().filter(|r| r != out).collect();
                assert_ne!(blocked_among(&named.book, of.number, &fewer), answer);
            }
            counts[rules.len().min(4) - 1] += 1;
        }
    }
    println!("closed by one, two, three and more rules: {counts:?}");
    assert!(counts.iter().all(|&count| count > 5), "{counts:?}");
}

/// On random books each rule has the engine's answer, with the names of its numbers.
#[test]
fn every_rule_has_the_engines_answer() {
    let mut counts = [0; 3];
    for seed in 0..200 {
        let size = [Size::Tiny, Size::Small][seed as usize % 2];
        let named = numbered(valid::draft(&mut Random::new(seed), size).bytes());
        for of in each(&named).expect("it is sound") {
            let answer = named.book.blocked(of.number as u32);
            let kind = match of.found {
                Found::Forbids => {
                    assert_eq!(answer, Err(Refusal::RuleForbids));
                    0
                }
                Found::Open => {
                    assert_eq!(answer, Ok(Blocking::Open));
                    1
                }
                Found::Closed {
                    user,
                    data,
                    closed_by,
                    ..
                } => {
                    let number = named.names.users.iter().position(|name| *name == user);
                    let user = number.expect("it is a user") as u32;
                    assert_eq!(answer, Ok(Blocking::Closed { user, data }));
                    let Ok(Causes::Few(others)) = named.book.culprits(of.number as u32) else {
                        panic!("rule {} is blocked", of.number);
                    };
                    let rules = closed_by.iter().map(|by| by.number);
                    let (itself, rest): (Vec<_>, Vec<_>) = rules.partition(|&r| r == of.number);
                    assert_eq!(itself.len(), 1);
                    assert!(others.numbers().eq(rest.iter().map(|&r| r as u32)));
                    2
                }
            };
            counts[kind] += 1;
        }
    }
    assert!(counts.iter().all(|&count| count > 20), "{counts:?}");
}
