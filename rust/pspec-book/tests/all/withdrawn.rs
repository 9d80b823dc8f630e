//! Withdrawn operations: text to bytes and back, each mistake, what is said of them, and random books.

use crate::common::{built, numbered, report_on, text};
use crate::running::{folder, run};
use books::valid::{self, Size};
use books::Random;
use pspec::{Access, Action, Plan, BLOCK};
use pspec_book::contents::{Category, Contents};
use pspec_book::named::NamedBook;
use pspec_book::names::Names;
use pspec_book::{blocked, build, html, policy, report, show};
use std::fs;

const STREET: &str = "examples/street.pspec";
const KIND: usize = BLOCK;

/// A text without its comments and empty lines.
fn bare(text: &str) -> String {
    let said = |line: &&str| !line.is_empty() && !line.starts_with('#');
    let lines = text.lines().filter(said);
    lines.map(|line| format!("{line}\n")).collect()
}

/// The text of a book, with its names.
fn shown(named: &NamedBook) -> String {
    show::text(&named.contents, &named.names)
}

#[test]
fn text_to_bytes_to_text() {
    let policy = text(STREET);
    let named = built(&policy);
    let bytes = named.book.bytes();
    let street = [1, 0, 0, 0, 4];
    let [name, house] = [[4, 0, 0, 0, 0], [4, 0, 4, 0, 0]];
    assert_eq!(bytes[KIND..KIND + 2], [6, 7]);
    assert_eq!(bytes[KIND + 22..KIND + 37], [street, name, house].concat());
    assert_eq!(shown(&named), bare(&policy));
    let again = numbered(bytes.to_vec());
    assert_eq!(again.contents, named.contents);
    assert_eq!(built(&shown(&again)).book, named.book);
}

/// The data section of a policy without anything else.
fn with_data(lines: &str) -> String {
    format!("users\n  U\ndata\n{lines}")
}

/// Some line with 'withdraws' makes kind 6, whatever it withdraws; an empty list is shown beside the root,
/// and only where no other list is.
#[test]
fn kinds() {
    for (data, kind, again) in [
        ("  D [a]\n    E\n", 2, "  D [a]\n    E\n"),
        (
            "  D [a] withdraws []\n    E\n",
            6,
            "  D [a] withdraws []\n    E\n",
        ),
        ("  D\n    E withdraws []\n", 6, "  D withdraws []\n    E\n"),
        (
            "  D withdraws []\n    E withdraws [a]\n",
            6,
            "  D\n    E withdraws [a]\n",
        ),
        (
            "  D [a] withdraws [b]\n    E [b] withdraws [a]\n",
            6,
            "  D [a] withdraws [b]\n    E [b] withdraws [a]\n",
        ),
    ] {
        let named = built(&with_data(data));
        assert_eq!(named.book.bytes()[KIND], kind, "{data}");
        assert_eq!(named.contents.has_withdrawn, kind == 6);
        assert_eq!(shown(&named), with_data(again));
        assert_eq!(built(&shown(&named)).book, named.book);
    }
}

/// A mask is written also where `has_withdrawn` was left out.
#[test]
fn no_mask_is_lost() {
    let named = built(&text(STREET));
    let contents = Contents {
        has_withdrawn: false,
        ..named.contents.clone()
    };
    assert_eq!(contents.book(), Ok(named.book));
}

/// The word may be a name, and a category that withdraws may stand at the left.
#[test]
fn the_word_as_a_name() {
    let data = "  withdraws [withdraws]\n    Low withdraws [withdraws]\n    High\n  \
                under-low [avg] withdraws [sum] under Low\n  last under withdraws\n";
    let policy =
        with_data(data) + "columns\n  withdraws: High\nfunctions\n  withdraws: withdraws\n";
    let named = built(&policy);
    assert_eq!(shown(&named), policy);
    let masks: Vec<(u16, u16)> = named
        .contents
        .data
        .iter()
        .map(|c| (c.own, c.withdrawn))
        .collect();
    assert_eq!(masks, [(2, 0), (0, 2), (0, 0), (4, 8), (0, 0)]);
}

/// Operations are numbered as the lines name them, and in a line the own ones come first.
#[test]
fn numbers_of_operations() {
    let data = "  D [c] withdraws [a]\n    E withdraws [b, c]\n    F [d]\n";
    let named = built(&with_data(data));
    assert_eq!(named.names.operations, ["c", "a", "b", "d"]);
    assert_eq!(named.contents.operations(), [1, 2, 3, 4]);
    let otherwise = format!("operations\n  a\n  b\n  c\n  d\n{}", with_data(data));
    let again = built(&otherwise);
    assert_eq!(again.contents.operations(), [3, 1, 2, 4]);
    // In a list the lowest number comes first.
    assert_eq!(shown(&again), otherwise);
    let fifteen: Vec<String> = (1..=15).map(|k| format!("o{k}")).collect();
    let most = with_data(&format!("  D withdraws [{}]\n", fifteen.join(", ")));
    assert_eq!(built(&most).contents.data[0].withdrawn, 0xFFFE);
    let one_more = format!("{most}    E withdraws [o16]\n");
    let mistake = "5: found 16 operations in a book; expected at most 15";
    assert_eq!(mistake_in(&one_more), mistake);
}

fn mistake_in(text: &str) -> String {
    let built = policy::read(text).and_then(|policy| build::book(&policy));
    built.expect_err("there is a mistake").to_string()
}

#[test]
fn mistakes() {
    let says = |line: &str, message: &str| {
        let policy = with_data(&format!("  D\n    {line}\n"));
        assert_eq!(mistake_in(&policy), format!("5: {message}"));
    };
    let open = "'under' or the end of the line";
    says("E withdraws", "found the end of the line; expected '['");
    says("E withdraws a", "found 'a'; expected '['");
    says("E withdraws under D", "found 'under'; expected '['");
    says(
        "E withdraws [",
        "found the end of the line; expected an operation",
    );
    says(
        "E withdraws [a",
        "found the end of the line; expected ',' or ']'",
    );
    says("E withdraws [a b]", "found 'b'; expected ',' or ']'");
    says("E withdraws [a,]", "found ']'; expected an operation");
    says(
        "E [a] withdraws [b] withdraws [c]",
        &format!("found 'withdraws'; expected {open}"),
    );
    says(
        "E withdraws [b] [a]",
        &format!("found '['; expected {open}"),
    );
    says("E withdraws [] x", &format!("found 'x'; expected {open}"));
    says(
        "E [a] [b]",
        &format!("found '['; expected 'withdraws', {open}"),
    );
    says(
        "E withdrawn [b]",
        &format!("found 'withdrawn'; expected '[', 'withdraws', {open}"),
    );
    says(
        "E [a, b] withdraws [c, b]",
        "found the operation b owned and withdrawn; expected it in one list only",
    );
    let late = with_data("  D\n  E under D withdraws [a]\n");
    let end = "5: found 'withdraws'; expected the end of the line";
    assert_eq!(mistake_in(&late), end);
    let user = "users\n  U withdraws [a]\ndata\n  D\n";
    assert_eq!(
        mistake_in(user),
        format!("2: found 'withdraws'; expected {open}")
    );
}

/// A mistake in a line leaves those below it as they are meant.
#[test]
fn one_mistake_is_one_line() {
    let policy = text(STREET).replace("Street withdraws [truncate]", "Street withdraws truncate");
    assert_eq!(mistake_in(&policy), "12: found 'truncate'; expected '['");
}

/// A line with any stretch of it left out is read or refused, and only for what depends on it.
#[test]
fn damaged_lines() {
    let line = "      Street [count] withdraws [truncate]";
    let policy = text(STREET).replace("      Street withdraws [truncate]", line);
    let (mut read, mut refused) = (0, 0);
    for start in 0..line.len() {
        for end in start + 1..=line.len() {
            let damaged = format!("{}{}", &line[..start], &line[end..]);
            let damaged = policy.replace(line, &damaged);
            match policy::read(&damaged).and_then(|policy| build::book(&policy)) {
                Ok(_) => read += 1,
                Err(mistakes) => {
                    assert!(mistakes.iter().all(|mistake| mistake.line >= 12));
                    refused += 1;
                }
            }
        }
    }
    assert!(read > 50 && refused > 500, "{read} {refused}");
}

#[test]
fn what_the_engine_refuses() {
    let says = |rule: &str, message: &str| {
        let policy = text(STREET) + &format!("  Analyst, [access {rule}]\n");
        assert_eq!(
            mistake_in(&policy),
            format!("30: refused 9: found the operation {message}")
        );
    };
    let count = "expected operations that it supports: count";
    says(
        "Street] => [{truncate}",
        &format!("truncate, which Street withdraws, for Street; {count}"),
    );
    says(
        "Street_Name] => [{count, truncate}",
        &format!("truncate, which Street withdraws, for Street_Name; {count}"),
    );
    says(
        "Street_Name] => [{mask}",
        &format!("mask for Street_Name; {count}"),
    );
    let bare = with_data("  D [a]\n    E withdraws [a]\n") + "rules\n  U, [access E] => [{a}]\n";
    let none = "7: refused 9: found the operation a, which E withdraws, for E; \
                expected none, as E supports no operation";
    assert_eq!(mistake_in(&bare), none);
}

/// Who withdraws an operation: the category whose parent still supports it.
#[test]
fn who_withdraws() {
    let data = "  D [a, b] withdraws [c]\n    E withdraws [a, c]\n      F withdraws [a]\n        \
                G\n      H [a]\n        I withdraws [a]\n";
    let contents = built(&with_data(data)).contents;
    let supported: Vec<u16> = (0..6).map(|c| contents.supported(c)).collect();
    assert_eq!(supported, [0b110, 0b100, 0b100, 0b100, 0b110, 0b100]);
    let by: Vec<Option<u8>> = (0..6).map(|c| contents.withdrawn_by(c, 1)).collect();
    assert_eq!(by, [None, Some(1), Some(1), Some(1), None, Some(5)]);
    // b is supported everywhere, and c nowhere: nothing takes it away.
    for operation in [2, 3] {
        assert!((0..6).all(|c| contents.withdrawn_by(c, operation).is_none()));
    }
}

/// What the program prints for the example, and that docs/EXAMPLE.md shows it.
#[test]
fn the_example() {
    let folder = folder("withdrawn");
    let files = ["street.pspec", "street-city.plan", "street-name.plan"];
    for name in files {
        fs::write(folder.join(name), text(&format!("examples/{name}"))).expect("it is written");
    }
    run(&folder, &["build", "street.pspec", "-o", "street.book"]);
    let document = text("docs/EXAMPLE.md");
    let is_shown = |said: &str| assert!(document.contains(&format!("```\n{said}```\n")), "{said}");
    let policy = text(STREET);
    let (_, data) = policy.split_once("data\n").expect("it is there");
    let (data, rest) = data.split_once("\ncolumns").expect("it is there");
    is_shown(&format!("data\n{data}"));
    let (_, rules) = rest.split_once("rules\n").expect("it is there");
    is_shown(&format!("rules\n{rules}"));
    let judged = |plan: &str| run(&folder, &["judge", "street.book", "Analyst", plan]);
    let fine = "Analyst breaks no rule.\n";
    assert_eq!(
        judged("street-city.plan"),
        (0, fine.to_string(), String::new())
    );
    assert!(document.contains(&format!("`{}`", fine.trim_end())));
    let broken = "Analyst breaks rule 0 (Analyst, [projection Address] => [{truncate}])\n  \
                  projection Address: output Street_Name, line 4 from line 2 (Street withdraws truncate)\n\
                  Analyst breaks rule 1 (Analyst, [projection Street_Name] => forbid)\n  \
                  projection Street_Name: output Street_Name, line 4 from line 2 (Street withdraws truncate)\n";
    assert_eq!(
        judged("street-name.plan"),
        (1, broken.to_string(), String::new())
    );
    is_shown(broken);
    let (_, said, _) = run(&folder, &["blocked", "street.book"]);
    let lines: String = said
        .lines()
        .take(2)
        .map(|line| format!("{line}\n"))
        .collect();
    is_shown(&lines);
    let refused = mistake_in(&(policy + "  Analyst, [access Street] => [{truncate}]\n"));
    let refused = refused.trim_start_matches("30: ");
    let words: Vec<&str> = document.split_whitespace().collect();
    assert!(
        words.join(" ").contains(&format!("`{refused}`")),
        "{refused}"
    );
}

/// Without the withdrawal rule 1 stops what rule 0 lets through.
#[test]
fn a_withdrawal_makes_a_rule_idle() {
    let policy = text(STREET).replace(" withdraws [truncate]", "");
    let report = report_on(&policy);
    let needed = "forbid): needed. Analyst breaks it alone with: output truncate(Street_Name)";
    let line = report.lines().nth(1).expect("it is there");
    assert!(line.ends_with(needed), "{report}");
    assert!(report.ends_with("No rule is idle.\n"));
}

/// What a plan on the example gives away.
fn flows(test: &str, plan: &str) -> String {
    let folder = folder(test);
    fs::write(folder.join("street.pspec"), text(STREET)).expect("it is written");
    fs::write(folder.join("p.txt"), plan).expect("it is written");
    run(&folder, &["build", "street.pspec", "-o", "street.book"]);
    let (status, said, complaint) = run(&folder, &["flows", "street.book", "p.txt"]);
    assert_eq!((status, complaint.as_str()), (0, ""));
    said
}

/// Who withdraws an operation is said where it would have come first, and nowhere else.
#[test]
fn what_did_not_count() {
    let flows = |plan: &str| flows("withdrawn-flows", plan);
    let note = "(Street withdraws truncate)";
    assert_eq!(
        flows("street\ntruncate(0)\ncount(1)\noutput 2\n"),
        format!("output count(Street_Name), line 4 from line 1 {note}\n")
    );
    assert_eq!(
        flows("street\ncount(0)\ntruncate(1)\noutput 2\nhouse\ntruncate(4)\nwhere 5\n"),
        "output count(Street_Name), line 4 from line 1\n\
         condition truncate(House_Number), line 7 from line 5\n"
    );
    // A function of two rows ends it before truncate is applied, and raw data have no note.
    assert_eq!(
        flows("street\ncount(0, 0)\ntruncate(1)\noutput 2\nstreet\nwhere 4\n"),
        "output Street_Name, line 4 from line 1\ncondition Street_Name, line 6 from line 5\n"
    );
    // By one of two ways, the first or the second.
    for choice in ["choose 0 ? 0 : 1", "choose 0 ? 1 : 0"] {
        assert_eq!(
            flows(&format!("street\ntruncate(0)\n{choice}\noutput 2\n")),
            format!(
                "output Street_Name, line 4 from line 1 {note}\n\
                 condition Street_Name, line 3 from line 1\n"
            )
        );
    }
}

/// The second line on the rule of a policy that closes its data by itself.
fn closed_alone(policy: &str, rule: usize) -> String {
    let named = built(policy);
    let found = blocked::of_rule(&named, rule).expect("it is a rule");
    let said = found.text(&named.names);
    said.lines().nth(1).expect("it is blocked").to_string()
}

/// What a rule asks for is withdrawn, has no function, or both.
#[test]
fn a_rule_on_its_own() {
    let alone = |asked: &str, why: &str| {
        format!(
            "  Closed by rule 0 on its own: what it asks for, {asked}, can't be had of these data, as {why}. \
             Change that, or the rule."
        )
    };
    let policy = text(STREET);
    let said = alone("truncate of Address", "Street withdraws truncate");
    assert_eq!(closed_alone(&policy, 0), said);
    let more = policy
        .replace("Address [truncate]", "Address [truncate, mask, hash]")
        .replace("withdraws [truncate]", "withdraws [truncate, hash]")
        .replace("=> [{truncate}]", "=> [{truncate, mask}] or [{hash}]");
    let said = alone(
        "truncate or mask of Address, or hash of Address",
        "Street withdraws truncate and hash, and no function gives mask or hash",
    );
    assert_eq!(closed_alone(&more, 0), said);
    // What is withdrawn from A1 is not asked for alone, so that only B1 is at fault.
    let data = "  D\n    A [a, b]\n      A1 withdraws [a]\n    B [c]\n      B1 withdraws [c]\n";
    let two = with_data(data)
        + "columns\n  x: A1\n  y: B1\nfunctions\n  b: b\n  c: c\nrules\n  \
           U, [projection A, projection B] => [{a, b}, {c}]\n";
    let said = alone("a or b of A and c of B", "B1 withdraws c");
    assert_eq!(closed_alone(&two, 0), said);
    // Nothing is withdrawn from what comes first, the city.
    let unnamed = policy.replace("  truncate: truncate\n", "");
    let said = "  Closed by rule 0 on its own: the functions do not give what it asks for, truncate of Address. \
                Add one that does, or change the rule.";
    assert_eq!(closed_alone(&unnamed, 0), said);
}

/// The page draws what a category withdraws beside what it owns.
#[test]
fn on_the_page() {
    let named = built(&text(STREET).replace("Street withdraws", "Street [mask] withdraws"));
    let reports = report::each(&named, |_| Ok(())).expect("it is reported");
    let page = html::page("street.book", &named, &reports);
    for said in [
        ">Address [truncate]</text>",
        ">Street [mask] withdraws [truncate]</text>",
        ">House_Number [truncate] <tspan class=\"note\">house</tspan></text>",
        "but for what it withdraws.</p>",
    ] {
        assert!(page.contains(said), "{said}\n{page}");
    }
    let rules = blocked::each(&named).expect("it is a book");
    let page = html::blocked("street.book", &named, &rules);
    assert!(page.contains("as Street withdraws truncate. Change that, or the rule.</p>"));
}

const SIZES: [Size; 4] = [Size::Tiny, Size::Small, Size::Middle, Size::Large];

/// A random book of kind 6, whose masks name what is still supported. Every fourth withdraws nothing.
fn random_book(seed: u64) -> NamedBook {
    let draft = valid::draft(&mut Random::new(seed), SIZES[seed as usize % 4]);
    let mut contents = numbered(draft.bytes()).contents;
    let mut random = Random::new(seed);
    let mut random = Random::new(random.bits());
    let all = match random.below(4) {
        0 => 0,
        1 => random.bits() as u16 & !1,
        _ => contents.data.iter().fold(0, |all, of| all | of.own),
    };
    contents.has_withdrawn = true;
    for of in &mut contents.data {
        of.withdrawn = match random.chance(1, 2) {
            true => random.some_of(all & !of.own),
            false => 0,
        };
    }
    let mut rules = contents.rules.clone();
    for rule in &mut rules {
        for masks in &mut rule.restrictions {
            for (mask, of) in masks.iter_mut().zip(&rule.references) {
                *mask &= contents.supported(of.category);
            }
        }
    }
    contents.rules = rules;
    let book = contents.book().expect("it is sound");
    let named = numbered(book.bytes().to_vec());
    assert_eq!(named.contents, contents);
    named
}

#[test]
fn the_same_bytes_come_back() {
    let mut empty = 0;
    for seed in 0..400 {
        let named = random_book(seed);
        assert_eq!(named.book.bytes()[KIND], 6);
        let text = shown(&named);
        let again = built(&text);
        assert!(again.book == named.book, "{text}");
        assert_eq!(shown(&again), text);
        let names = Names::read(&named.names.text(&named.book), &named.book);
        assert_eq!(names.as_ref(), Ok(&named.names));
        empty += usize::from(text.contains(" withdraws []\n"));
    }
    assert!((50..200).contains(&empty), "{empty}");
}

/// A column under a function has its operation exactly where the label supports it, says the engine.
#[test]
fn support_is_the_engines() {
    let [mut supported, mut withdrawn] = [0; 2];
    for seed in 0..200 {
        let NamedBook { book, contents, .. } = random_book(seed);
        // The lowest column of each label, and the lowest function of each operation.
        let lowest = |list: &[u8], of: u8| list.iter().position(|&one| one == of);
        let columns = (0..64).filter_map(|leaf| Some((leaf, lowest(&contents.columns, leaf)?)));
        for (leaf, column) in columns {
            let functions = (1..16).filter_map(|k| Some((k, lowest(&contents.functions, k)?)));
            for (k, function) in functions {
                let applied = [2, function as u8, 0, 255];
                let rows = [[1, column as u8, 0, 0], applied, [4, 1, 0, 0]];
                let accesses = book.flows(&Plan::new(rows.concat()));
                let found: Vec<Access> = accesses.expect("it is a plan").iter().collect();
                let has = contents.supported(leaf) >> k & 1 == 1;
                let operation = if has { k } else { 0 };
                let action = Action::Projection;
                let access = Access {
                    action,
                    leaf,
                    operation,
                };
                assert_eq!(found, [access]);
                supported += usize::from(has);
                withdrawn += usize::from(contents.withdrawn_by(leaf, k).is_some());
            }
        }
    }
    assert!(
        supported > 1000 && withdrawn > 200,
        "{supported} {withdrawn}"
    );
}

/// With nothing withdrawn both kinds have the same report.
#[test]
fn kind_6_with_nothing_withdrawn() {
    for seed in 0..60 {
        let size = [Size::Tiny, Size::Small][seed as usize % 2];
        let contents = numbered(valid::draft(&mut Random::new(seed), size).bytes()).contents;
        let withdrawn = 0;
        let data = contents.data.iter().map(|&of| Category { withdrawn, ..of });
        let data: Vec<Category> = data.collect();
        let [two, six] = [false, true].map(|has_withdrawn| {
            let book = Contents {
                data: data.clone(),
                has_withdrawn,
                ..contents.clone()
            };
            let book = book.book().expect("it is sound");
            numbered(book.bytes().to_vec())
        });
        assert_eq!([two.book.bytes()[KIND], six.book.bytes()[KIND]], [2, 6]);
        let texts = [two, six].map(|named| shown(&named));
        assert_eq!(texts[1].matches(" withdraws []\n").count(), 1);
        assert_eq!(texts[1].replace(" withdraws []\n", "\n"), texts[0]);
        let [two, six] = texts.map(|text| report_on(&text));
        assert_eq!(two, six);
    }
}
