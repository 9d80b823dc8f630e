//! The program: the lineage tree of a row, as text, with names and as JSON, and what is refused.

use crate::common::{numbered, text};
use crate::running::{folder, run, shop};
use books::valid::{self, Size};
use books::{plans, Random};
use pspec::{Plan, Refusal};
use pspec_book::explain;
use pspec_book::lineage_tree::{self, values, Value};
use pspec_book::named::NamedBook;
use pspec_book::plan::PlanText;
use std::collections::BTreeSet;
use std::fs;
use std::path::PathBuf;

const AVERAGE: &str = "examples/small-shop-average.plan";

/// A folder with the small shop's book and a plan.
fn shop_with(test: &str, plan: &str) -> PathBuf {
    let folder = shop(&format!("tree-{test}"));
    fs::write(folder.join("p.txt"), plan).expect("it is written");
    folder
}

/// What the program says of a row of a plan on the small shop.
fn tree(test: &str, plan: &str, row_and_options: &[&str]) -> (i32, String, String) {
    let folder = shop_with(test, plan);
    let mut arguments = vec!["tree", "shop.book", "p.txt"];
    arguments.extend(row_and_options);
    run(&folder, &arguments)
}

fn answer(said: &str) -> (i32, String, String) {
    (0, said.to_string(), String::new())
}

fn complaint(said: &str) -> (i32, String, String) {
    (1, String::new(), format!("p.txt:{said}\n"))
}

const TREE: &str = "\
5 choose
  0 column
  4 apply
    1 column
    3 apply
      2 column
  3 apply
    2 column
";

const NAMED: &str = "\
5 choose (row 0 decides)
  0 column note (no label)
  4 apply concat (no operation)
    1 column state (State)
    3 apply avg (avg)
      2 column price (Price)
  3 apply avg (avg)
    2 column price (Price)
";

#[test]
fn a_tree_for_the_records() {
    let plan = text(AVERAGE);
    let tree = |row: &str| tree("records", &plan, &[row]);
    assert_eq!(tree("5"), answer(TREE));
    assert_eq!(tree("05"), answer(TREE));
    assert_eq!(tree("3"), answer("3 apply\n  2 column\n"));
    assert_eq!(tree("0"), answer("0 column\n"));
}

/// Rows that nobody asks for, comments and outputs between rows change no number in the tree.
#[test]
fn rows_are_not_lines() {
    let plan = "# prices\n\nprice\noutput 0\nsum(0)  # of row 0\n\nwhere 2\nconcat(2, 0)\n";
    let tree = |row: &str| tree("lines", plan, &[row]);
    assert_eq!(
        tree("4"),
        answer("4 apply\n  2 apply\n    0 column\n  0 column\n")
    );
    let no_value = "which gives no value; expected a column, a function or a choice";
    let condition = format!("7: refused 29: found row 3, a condition on row 2, {no_value}");
    assert_eq!(tree("3"), complaint(&condition));
    let output = format!("4: refused 29: found row 1, the output of row 0, {no_value}");
    assert_eq!(tree("1"), complaint(&output));
}

#[test]
fn names_beside_the_numbers() {
    let plan = text(AVERAGE);
    for words in [&["5", "--names"][..], &["--names", "5"]] {
        assert_eq!(tree("names", &plan, words), answer(NAMED));
    }
    let mut both = NAMED.lines().zip(TREE.lines());
    assert!(both.all(|(named, line)| named.starts_with(line)));
}

/// A function has another name than its operation, and without the file of names both are numbers.
#[test]
fn names_of_the_policy_or_numbers() {
    let folder = folder("tree-numbers");
    let policy = "users\n  U\ndata\n  D\n    Price [avg]\ncolumns\n  x: -\n  paid: Price\n\
                  functions\n  glue: -\n  mean: avg\n";
    fs::write(folder.join("p.pspec"), policy).expect("it is written");
    run(&folder, &["build", "p.pspec", "-o", "p.book"]);
    let write = |plan: &str| fs::write(folder.join("p.txt"), plan).expect("it is written");
    let asked = ["tree", "p.book", "p.txt", "3", "--names"];
    write("paid\nmean(0)\nx\nglue(1, 2)\n");
    let said = "3 apply glue (no operation)\n  1 apply mean (avg)\n    0 column paid (Price)\n  \
                2 column x (no label)\n";
    assert_eq!(run(&folder, &asked), answer(said));
    fs::remove_file(folder.join("p.book.names")).expect("it was there");
    write("column1\nfunction1(0)\ncolumn0\nfunction0(1, 2)\n");
    let said = "3 apply function0 (no operation)\n  1 apply function1 (op1)\n    \
                0 column column1 (data1)\n  2 column column0 (no label)\n";
    assert_eq!(run(&folder, &asked), answer(said));
}

/// The nodes of the tree for scripts, line by line.
const NODES: [&str; 8] = [
    r#"{"level":0,"row":5,"kind":"choose","decides":0}"#,
    r#"{"level":1,"row":0,"kind":"column","column":"note","label":null}"#,
    r#"{"level":1,"row":4,"kind":"apply","function":"concat","operation":null}"#,
    r#"{"level":2,"row":1,"kind":"column","column":"state","label":"State"}"#,
    r#"{"level":2,"row":3,"kind":"apply","function":"avg","operation":"avg"}"#,
    r#"{"level":3,"row":2,"kind":"column","column":"price","label":"Price"}"#,
    r#"{"level":1,"row":3,"kind":"apply","function":"avg","operation":"avg"}"#,
    r#"{"level":2,"row":2,"kind":"column","column":"price","label":"Price"}"#,
];

#[test]
fn for_scripts() {
    let plan = text(AVERAGE);
    let text = TREE.replace('\n', "\\u000a");
    let nodes = NODES.join(",");
    let json = format!("{{\"row\":5,\"node_count\":8,\"text\":\"{text}\",\"nodes\":[{nodes}]}}\n");
    for words in [&["5", "--json"][..], &["5", "--names", "--json"]] {
        assert_eq!(tree("json", &plan, words), answer(&json));
    }
    let refused = "8: refused 29: found row 7; the plan has 7 rows, counted from 0";
    assert_eq!(tree("json", &plan, &["7", "--json"]), complaint(refused));
}

#[test]
fn rows_that_the_plan_does_not_have() {
    let says = |plan: &str, row: &str, said: &str| {
        assert_eq!(tree("absent", plan, &[row]), complaint(said));
    };
    let one = "the plan has 1 row, counted from 0";
    for row in ["1", "64", "255", "256", "4294967295"] {
        let said = format!("1: refused 29: found row {row}; {one}");
        says("price\n", row, &said);
    }
    says(
        "# nothing\n",
        "0",
        "1: refused 29: found row 0; the plan has 0 rows, counted from 0",
    );
}

/// A price, and rows that each name the one before so many times.
fn growing(row: impl Fn(usize) -> String, rows: usize) -> String {
    let rows: String = (0..rows).map(row).collect();
    format!("price\n{rows}")
}

fn too_long(row: usize, fits: usize) -> (i32, String, String) {
    complaint(&format!(
        "{}: refused 30: found more than 4,096 nodes in the tree of row {row}, as a row reached \
         twice is written twice; expected at most 4,096. Row {fits} is the highest row in it whose \
         tree fits",
        row + 1
    ))
}

/// Each choice has three times the nodes of the one before, and one more.
#[test]
fn choices_of_choices() {
    let plan = growing(|i| format!("choose {i} ? {i} : {i}\n"), 63);
    let tree = |row: &str| tree("choices", &plan, &[row]);
    for row in [8, 9, 63] {
        assert_eq!(tree(&row.to_string()), too_long(row, 7));
    }
    let (status, said, _) = tree("7");
    assert_eq!((status, said.lines().count()), (0, 3280));
}

/// 4,095 nodes at row 11, and one more for each function of one row.
#[test]
fn the_longest_tree() {
    let plan = growing(|i| format!("concat({i}, {i})\n"), 11) + "sum(11)\nsum(12)\nstate\n";
    let tree = |words: &[&str]| tree("longest", &plan, words);
    assert_eq!(tree(&["13"]), too_long(13, 12));
    assert_eq!(tree(&["13", "--names"]), too_long(13, 12));
    let (status, said, _) = tree(&["12"]);
    assert_eq!((status, said.lines().count()), (0, 4096));
    let (_, named, _) = tree(&["12", "--names"]);
    assert_eq!(named.lines().count(), 4096);
    assert!(named.ends_with(&format!("\n{}0 column price (Price)\n", " ".repeat(24))));
    assert_eq!(tree(&["14"]), answer("14 column\n"));
}

/// A plan is refused before the row is looked at.
#[test]
fn plans_that_are_refused() {
    let says = |plan: &str, row: &str, said: &str| {
        assert_eq!(tree("plans", plan, &[row]), complaint(said));
    };
    let above = "2: refused 22: found row 1 named by row 1; expected a row above it";
    for row in ["0", "1", "9"] {
        says("price\navg(1)\n", row, above);
    }
    says(
        &"price\n".repeat(65),
        "70",
        "65: refused 21: found 65 rows; expected at most 64",
    );
    says(
        "price\nmax(0)\n",
        "1",
        "2: found 'max'; expected a function that the book has",
    );
}

#[test]
fn books_and_files_that_are_refused() {
    let folder = shop_with("refused", &text(AVERAGE));
    let mut book = fs::read(folder.join("shop.book")).expect("it is there");
    book[512 * 5 + 2] = 1;
    fs::write(folder.join("changed.book"), &book).expect("it is written");
    let said =
        "changed.book: refused 2 at block 5: a block has a wrong check (block 5 is rule 1)\n";
    let ran = run(&folder, &["tree", "changed.book", "p.txt", "5"]);
    assert_eq!(ran, (1, String::new(), said.to_string()));
    for [book, plan] in [["no", "p.txt"], ["shop.book", "no"]] {
        let (status, answer, said) = run(&folder, &["tree", book, plan, "5"]);
        assert_eq!((status, answer.as_str()), (2, ""));
        assert!(said.starts_with("no: can't be read: "), "{said}");
    }
}

/// What is no number of a row is said before any file is opened.
#[test]
fn wrong_arguments() {
    let folder = folder("tree-arguments");
    let complains = |words: &[&str], said: &str| {
        let arguments = [&["tree", "no.book", "no.txt"], words].concat();
        let said = format!("{said}\n'pspec-book tree --help' says more\n");
        assert_eq!(run(&folder, &arguments), (2, String::new(), said));
    };
    for word in [
        "x",
        "",
        "1x",
        " 1",
        "+1",
        "1.0",
        "0x1",
        "4294967296",
        "4294967301",
        "18446744073709551616",
        "٣",
    ] {
        let said = format!("found '{word}'; expected the number of a row, 0 to 63");
        complains(&[word], &said);
    }
    let negative = "found '-1'; expected the number of a row, 0 to 63";
    complains(&["--", "-1"], negative);
    let usage = "expected tree BOOK PLAN ROW [--json] [--names]";
    for words in ["-1", "1 2", "1 --html", "1 --names --names", "--names"] {
        let said = format!("found 'tree no.book no.txt {words}'; {usage}");
        complains(&words.split(' ').collect::<Vec<_>>(), &said);
    }
    complains(&[], &format!("found 'tree no.book no.txt'; {usage}"));
}

#[test]
fn it_is_in_the_help() {
    let folder = folder("tree-help");
    for asked in [&["help"][..], &["help", "tree"], &["tree", "--help"]] {
        let (status, said, _) = run(&folder, asked);
        let usage = "pspec-book tree BOOK PLAN ROW [--json] [--names]\n";
        assert!(status == 0 && said.contains(usage), "{said}");
    }
}

/// docs/EXAMPLE.md shows the plan and both texts as they are printed, and speaks of two more answers.
#[test]
fn the_answers_in_the_document() {
    let document = text("docs/EXAMPLE.md");
    for shown in [&text(AVERAGE), TREE, NAMED] {
        assert!(document.contains(&format!("```\n{shown}```\n")), "{shown}");
    }
    assert!(document.contains(&format!("tree ../target/shop.book ../{AVERAGE} 5\n")));
    let (status, _, said) = tree("document", &text(AVERAGE), &["6"]);
    assert!(status == 1 && said.contains("found row 6, the output of row 5"));
    let accesses = run(
        &shop_with("document", &text(AVERAGE)),
        &["flows", "shop.book", "p.txt"],
    );
    let said = "output State, line 8 from line 3\noutput avg(Price), line 8 from line 4\n";
    assert_eq!(accesses, answer(said));
}

/// A random book and a sound plan for it, a line for each row.
fn case(seed: u64) -> (NamedBook, PlanText) {
    let mut random = Random::new(seed);
    let size = [Size::Tiny, Size::Small, Size::Middle][seed as usize % 3];
    let draft = valid::draft(&mut random, size);
    let plan = Plan::new(plans::sound(&mut random, &draft));
    let lines = (1..=plan.rows().count()).collect();
    (numbered(draft.bytes()), PlanText { plan, lines })
}

/// Are these the names of the row, which are numbers here?
fn is_the_row(value: Value, row: [u8; 4], named: &NamedBook) -> bool {
    let [kind, a, ..] = row.map(usize::from);
    match value {
        Value::Column { name, label } => {
            let leaf = named.contents.columns.get(a).copied();
            let leaf = leaf.filter(|&leaf| leaf != 255);
            let wanted = leaf.map(|leaf| format!("data{leaf}"));
            kind == 1 && name == format!("column{a}") && label == wanted.as_deref()
        }
        Value::Apply {
            function,
            operation,
        } => {
            let k = named.contents.functions.get(a).copied();
            let k = k.filter(|&k| k != 0).map(|k| format!("op{k}"));
            kind == 2 && function == format!("function{a}") && operation == k.as_deref()
        }
        Value::Choose { decides } => kind == 3 && decides == a,
    }
}

/// On random plans every line goes on with the names of its row, and is as before without them.
#[test]
fn names_are_those_of_the_rows() {
    let mut counts = [0; 3];
    for seed in 0..400 {
        let (named, PlanText { plan, .. }) = case(seed);
        let rows: Vec<[u8; 4]> = plan.rows().collect();
        for row in 0..rows.len() as u32 {
            let Ok(tree) = named.book.tree(&plan, row) else {
                continue;
            };
            let said = lineage_tree::text(&tree, &plan, &named);
            let values = values(&tree, &plan, &named);
            let count = tree.node_count() as usize;
            assert_eq!((said.lines().count(), values.len()), (count, count));
            let mut bare = String::new();
            for (line, (node, value)) in said.lines().zip(values) {
                assert!(is_the_row(value, rows[node.row], &named), "{line}");
                let kind = rows[node.row][0] - 1;
                let word = ["column", "apply", "choose"][usize::from(kind)];
                let front = format!("{}{} {word}", "  ".repeat(node.level), node.row);
                assert!(line.starts_with(&(front.clone() + " ")), "{line}");
                bare += &(front + "\n");
                counts[usize::from(kind)] += 1;
            }
            assert_eq!(bare, tree.text());
        }
    }
    assert!(counts.iter().all(|&count| count > 1000), "{counts:?}");
}

/// The rows in the tree of a row, found from the top down.
fn rows_in(row: usize, rows: &[[u8; 4]], found: &mut BTreeSet<usize>) {
    if !found.insert(row) {
        return;
    }
    let [kind, a, b, c] = rows[row].map(usize::from);
    let below = match kind {
        1 => vec![],
        2 if c == 255 => vec![b],
        2 => vec![b, c],
        _ => vec![a, b, c],
    };
    for row in below {
        rows_in(row, rows, found);
    }
}

/// On random plans every row without a tree has its reason, and where the tree is too long the row
/// that is named has one, is in it, and no higher one in it has one.
#[test]
fn every_refused_row_has_its_reason() {
    let (mut no_value, mut too_long) = (0, 0);
    for seed in 0..400 {
        let (named, read) = case(seed);
        let rows: Vec<[u8; 4]> = read.plan.rows().collect();
        for row in 0..rows.len() as u32 + 2 {
            let Err(refusal) = named.book.tree(&read.plan, row) else {
                continue;
            };
            let why = explain::tree(refusal, row, &read, &named);
            assert_eq!(why.line, (row as usize + 1).min(rows.len()).max(1));
            if refusal == Refusal::NoValueRow {
                let found = format!("refused 29: found row {row}");
                assert!(why.what.starts_with(&found), "{why}");
                no_value += 1;
                continue;
            }
            assert_eq!(refusal, Refusal::TreeSize);
            let mut inside = BTreeSet::new();
            rows_in(row as usize, &rows, &mut inside);
            let fits = |&&r: &&usize| named.book.tree(&read.plan, r as u32).is_ok();
            let highest = inside.iter().rev().find(fits).expect("a column is in it");
            let wanted = format!(" Row {highest} is the highest row in it whose tree fits");
            assert!(why.what.ends_with(&wanted), "{why}");
            too_long += 1;
        }
    }
    assert!(no_value > 500 && too_long > 100, "{no_value} {too_long}");
}
