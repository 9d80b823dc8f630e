//! The program: check, flows, labels, encode, decode, and answers as JSON and as a page.

use crate::common::text;
use crate::running::{folder, run, shop, text_of};
use std::fs;

#[test]
fn checking_writes_nothing() {
    let folder = folder("check");
    let policy = text("examples/small-shop.pspec");
    fs::write(folder.join("shop.pspec"), &policy).expect("it is written");
    let said = "shop.pspec: 3 rules, no mistake\n".to_string();
    let checked = run(&folder, &["check", "shop.pspec"]);
    assert_eq!(checked, (0, said, String::new()));
    let wrong = policy.replace("city: City", "city: Town");
    fs::write(folder.join("shop.pspec"), wrong).expect("it is written");
    let complaint = "shop.pspec:17: found 'Town'; expected a data category or '-'\n".to_string();
    let checked = run(&folder, &["check", "shop.pspec"]);
    assert_eq!(checked, (1, String::new(), complaint));
    let files = fs::read_dir(&folder).expect("it is there").count();
    assert_eq!(files, 1);
}

/// What a plan on the small shop gives away.
fn flows(test: &str, plan: &str) -> (i32, String, String) {
    let folder = shop(test);
    fs::write(folder.join("p.txt"), plan).expect("it is written");
    run(&folder, &["flows", "shop.book", "p.txt"])
}

#[test]
fn what_a_plan_gives_away() {
    let plan = "0 = column price\n1 = avg(0)\n2 = state\n3 = choose 0 ? 1 : 2\n\n\
                output 3\noutput 3\nwhere 2\nnote\noutput 7\n";
    let accesses = "output State, line 6 from line 3, line 7 from line 3\n\
                    output avg(Price), line 6 from line 1, line 7 from line 1\n\
                    condition State, line 8 from line 3\n\
                    condition Price, line 4 from line 1\n";
    let flows = |plan: &str| flows("flows", plan);
    assert_eq!(flows(plan), (0, accesses.to_string(), String::new()));
    let nothing = "The plan gives nothing away.\n".to_string();
    assert_eq!(flows("price\n"), (0, nothing, String::new()));
    let complaint = "p.txt:1: refused 22: found row 0 named by row 0; expected a row above it\n";
    assert_eq!(flows("output 0"), (1, String::new(), complaint.to_string()));
}

/// A function of two rows does not count, nor does anything above it; what counts below it does.
#[test]
fn what_a_function_of_two_rows_gives_away() {
    let gives = |plan: &str, accesses: &str| {
        let said = flows("two-rows", plan);
        assert_eq!(said, (0, accesses.to_string(), String::new()));
    };
    gives(
        "state\nprice\nconcat(0, 1)\navg(2)\noutput 3\n",
        "output State, line 5 from line 1\noutput Price, line 5 from line 2\n",
    );
    gives(
        "price\navg(0)\nstate\nconcat(1, 2)\nsum(3)\noutput 4\n",
        "output State, line 6 from line 3\noutput avg(Price), line 6 from line 1\n",
    );
    gives(
        "price\navg(0, 0)\nwhere 1\n",
        "condition Price, line 3 from line 1\n",
    );
    // A price mixed with the state, or another one alone.
    gives(
        "state\nprice\nconcat(0, 1)\nprice\nchoose 0 ? 2 : 3\navg(4)\noutput 5\n",
        "output State, line 7 from line 1\noutput Price, line 7 from line 2\n\
         output avg(Price), line 7 from line 4\ncondition State, line 5 from line 1\n",
    );
}

#[test]
fn what_is_not_labelled() {
    let folder = shop("labels");
    let nothing = "Columns without a label: note\nLeaves that no column has: none\n\
                   Operations that no function has: none\n\
                   Rules that nothing can break for want of a column: none\n";
    let said = run(&folder, &["labels", "shop.book"]);
    assert_eq!(said, (0, nothing.to_string(), String::new()));
    let policy = text("examples/small-shop.pspec")
        .replace("price: Price", "price: -")
        .replace("  sum: sum\n", "")
        .replace("rules\n", "rules\n  Report, [access City] => [{}]\n");
    fs::write(folder.join("bare.pspec"), policy).expect("it is written");
    run(&folder, &["build", "bare.pspec", "-o", "bare.book"]);
    let lacking = "Columns without a label: price, note\nLeaves that no column has: Price\n\
                   Operations that no function has: sum\n\
                   Rules that nothing can break for want of a column:\n  \
                   rule 1 (Analyst, [projection Address, projection Price] => [{}, {avg, sum}]): \
                   none for projection Price\n  \
                   rule 2 (Analyst, [access Price] => [{avg}]): none for access Price\n  \
                   rule 3 (Report, [projection Address, projection Price] => [{}, {avg}]): \
                   none for projection Price\n";
    let said = run(&folder, &["labels", "bare.book"]);
    assert_eq!(said, (0, lacking.to_string(), String::new()));
}

#[test]
fn plans_both_ways() {
    let folder = shop("both-ways");
    let plan = "0 = column price\n1 = avg(0)\n2 = column state\n3 = concat(1, 2)\n\
                4 = choose 0 ? 3 : 1\noutput 4\nwhere 2\n";
    fs::write(folder.join("p.txt"), plan).expect("it is written");
    let rows = "01020000 020100ff 01000000 02000102 03000301 04040000 05020000";
    let encoded = run(&folder, &["encode", "shop.book", "p.txt"]);
    assert_eq!(encoded, (0, format!("{rows}\n"), String::new()));
    let mut arguments = vec!["decode", "shop.book"];
    arguments.extend(rows.split(' '));
    assert_eq!(
        run(&folder, &arguments),
        (0, plan.to_string(), String::new())
    );
    let decoded = run(&folder, &["decode", "shop.book", &rows.to_uppercase()]);
    assert_eq!(decoded, (0, plan.to_string(), String::new()));

    let written = run(&folder, &["encode", "shop.book", "p.txt", "-o", "p.plan"]);
    assert_eq!(written, (0, "p.plan: 7 rows\n".to_string(), String::new()));
    let bytes = fs::read(folder.join("p.plan")).expect("it is there");
    assert_eq!((bytes.len(), &bytes[4..8]), (28, &[2, 1, 0, 255][..]));
}

#[test]
fn rows_that_are_no_plan() {
    let folder = shop("no-plan");
    let complains = |rows: &str, complaint: &str| {
        let decoded = run(&folder, &["decode", "shop.book", rows]);
        assert_eq!(decoded, (1, String::new(), format!("{complaint}\n")));
    };
    complains(
        "01020000 0402",
        "found '0402'; expected rows of eight hexadecimal digits",
    );
    complains(
        "+1020000",
        "found '+1020000'; expected rows of eight hexadecimal digits",
    );
    complains(
        "01020000 04070000",
        "row 1: refused 22: found row 7 named by row 1; expected a row above it",
    );
    let first = |row: &str, found: &str| complains(row, &format!("row 0: refused 22: {found}"));
    first("09000000", "found the kind 9; expected 1 to 5");
    first("01040000", "found column 4; the book has 4");
    first("02030000", "found function 3; the book has 3");
    first("01020007", "found 0 and 7 at its end; expected 0 and 0");
    first(
        "04ff0000",
        "found row 255 named by row 0; expected a row above it",
    );
    complains(
        &"01020000 ".repeat(65),
        "row 64: refused 21: found 65 rows; expected at most 64",
    );
}

#[test]
fn answers_for_scripts() {
    let folder = shop("json");
    fs::write(
        folder.join("p.txt"),
        "price\nsum(0)\noutput 1\nstate\nwhere 3\n",
    )
    .expect("written");
    let answers = |arguments: &[&str], status: i32, json: &str| {
        let said = run(&folder, arguments);
        assert_eq!(said, (status, format!("{json}\n"), String::new()));
    };
    let sum = r#"{"action":"projection","leaf":"Price","operation":"sum","lines":[{"line":3,"columns":[1]}]}"#;
    let state = r#"{"action":"condition","leaf":"State","operation":null,"lines":[{"line":5,"columns":[4]}]}"#;
    answers(
        &["flows", "shop.book", "p.txt", "--json"],
        0,
        &format!(r#"{{"accesses":[{sum},{state}]}}"#),
    );
    answers(
        &["judge", "--json", "shop.book", "Report", "p.txt"],
        1,
        &format!(
            r#"{{"user":"Report","opens":false,"broken":[{{"number":1,"rule":"Analyst, [access Price] => [{{avg}}]","by":[{{"reference":"access Price","accesses":[{sum}]}}]}}]}}"#
        ),
    );
    answers(
        &["labels", "shop.book", "--json"],
        0,
        r#"{"columns":["note"],"leaves":[],"operations":[],"rules":[]}"#,
    );
    let (status, report, _) = run(&folder, &["report", "shop.book", "--json"]);
    assert_eq!(status, 0);
    let needed = r#"{"number":1,"rule":"Analyst, [access Price] => [{avg}]","idle":false,"user":"Report","accesses":["output Price"],"plan":"01020000 04000000"}"#;
    assert!(report.contains(needed), "{report}");
    let idle = r#""idle":true,"unbreakable":false,"covered_by":[1]}],"idle":[0,2]}"#;
    assert!(report.ends_with(&format!("{idle}\n")), "{report}");
}

#[test]
fn a_status_for_idle_rules() {
    let folder = shop("exit-code");
    let report = text("examples/small-shop.report");
    let said = run(&folder, &["report", "shop.book", "--exit-code"]);
    assert_eq!(said, (3, report, String::new()));
    let (status, _, _) = run(&folder, &["report", "shop.book", "--json", "--exit-code"]);
    assert_eq!(status, 3);
    let policy = text("examples/tpc-ds.pspec");
    fs::write(folder.join("tpc.pspec"), policy).expect("it is written");
    run(&folder, &["build", "tpc.pspec", "-o", "tpc.book"]);
    let (status, _, _) = run(&folder, &["report", "tpc.book", "--exit-code"]);
    assert_eq!(status, 0);
}

#[test]
fn a_page_is_written() {
    let folder = shop("page");
    let said = run(&folder, &["report", "shop.book", "--html", "shop.html"]);
    let answer = "shop.html: the report on shop.book\n".to_string();
    assert_eq!(said, (0, answer, String::new()));
    assert!(text_of(&folder, "shop.html").starts_with("<!DOCTYPE html>\n"));
    let both = [
        "report",
        "shop.book",
        "--html",
        "x.html",
        "--json",
        "--exit-code",
    ];
    let (status, json, _) = run(&folder, &both);
    assert!(status == 3 && json.starts_with("{\"rules\":["));
    assert_eq!(text_of(&folder, "x.html"), text_of(&folder, "shop.html"));
    let (status, _, complaint) = run(&folder, &["report", "shop.book", "--html", "no/x.html"]);
    assert!(status == 2 && complaint.starts_with("no/x.html: can't be written: "));
}

/// docs/EXAMPLE.md shows what the program answers.
#[test]
fn the_answers_in_the_document() {
    let folder = shop("document");
    for name in ["tpc-ds.pspec", "tpc-ds-zip.plan"] {
        fs::write(folder.join(name), text(&format!("examples/{name}"))).expect("it is written");
    }
    run(&folder, &["build", "tpc-ds.pspec", "-o", "tpc.book"]);
    let document = text("docs/EXAMPLE.md");
    let (_, shown) = document.split_once("```json\n").expect("it is there");
    let shown: Vec<&str> = shown.lines().take(6).collect();
    let answer = |arguments: &[&str]| run(&folder, arguments).1;
    assert!(answer(&["report", "shop.book", "--json"]).contains(shown[0]));
    assert!(answer(&["blocked", "tpc.book", "--json"]).contains(shown[4]));
    let plan = "tpc-ds-zip.plan";
    for (arguments, shown) in [
        (&["labels", "shop.book", "--json"][..], shown[1]),
        (&["judge", "tpc.book", "Analyst", plan, "--json"], shown[2]),
        (&["flows", "tpc.book", plan, "--json"], shown[3]),
        (&["tree", "tpc.book", plan, "2", "--json"], shown[5]),
    ] {
        assert_eq!(answer(arguments).trim_end(), shown);
    }
}
