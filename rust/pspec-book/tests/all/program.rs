//! The program: what it prints, where, and its exit status.

use crate::common::{file, text};
use crate::running::{folder, run, shop, text_of};
use std::fs;

#[test]
fn from_text_to_report() {
    let folder = shop("report");
    let report = text("examples/small-shop.report");
    assert_eq!(
        run(&folder, &["report", "shop.book"]),
        (0, report, String::new())
    );
}

#[test]
fn what_is_shown_builds_the_same_book() {
    let folder = shop("show");
    for with_names in [true, false] {
        if !with_names {
            fs::remove_file(folder.join("shop.book.names")).expect("it was there");
        }
        let (status, shown, _) = run(&folder, &["show", "shop.book"]);
        assert_eq!((status, shown.contains("Analyst")), (0, with_names));
        assert_eq!(shown.contains("user0"), !with_names);
        fs::write(folder.join("shown.pspec"), shown).expect("it is written");
        run(&folder, &["build", "-o", "again.book", "shown.pspec"]);
        let read = |name: &str| fs::read(folder.join(name)).expect("it is there");
        assert_eq!(read("again.book"), read("shop.book"));
    }
}

/// Judges a plan for a user of the small shop.
fn judged(user: &str, plan: &str) -> (i32, String, String) {
    let folder = shop(&format!("judge-{user}-{:x}", plan.len()));
    fs::write(folder.join("p.txt"), plan).expect("it is written");
    run(&folder, &["judge", "shop.book", user, "p.txt"])
}

#[test]
fn judging() {
    let plan =
        "0 = column State\noutput 0\nprice\n3 = sum(2)  # the column's own name above\noutput 3\n";
    let broken = "Report breaks rule 1 (Analyst, [access Price] => [{avg}])\n  \
                  access Price: output sum(Price), line 5 from line 3\n\
                  Report breaks rule 2 (Report, [projection Address, projection Price] \
                  => [{}, {avg}])\n  \
                  projection Address: output State, line 2 from line 1\n  \
                  projection Price: output sum(Price), line 5 from line 3\n";
    assert_eq!(
        judged("Report", plan),
        (1, broken.to_string(), String::new())
    );
    let fine = "Report breaks no rule.\n".to_string();
    assert_eq!(judged("Report", "# nothing\n"), (0, fine, String::new()));
    let no_user = "refused 20: found Analyst; \
                   expected a user without others below it, and Analyst has Report, Marketing\n";
    assert_eq!(
        judged("Analyst", ""),
        (1, String::new(), no_user.to_string())
    );
    let unknown = "refused: found the user 'Bob'; expected one of Report, Marketing\n";
    assert_eq!(judged("Bob", ""), (1, String::new(), unknown.to_string()));
}

/// The complaint about a plan.
fn plan_says(plan: &str, message: &str) {
    let complaint = format!("p.txt:{message}\n");
    assert_eq!(judged("Report", plan), (1, String::new(), complaint));
}

#[test]
fn mistakes_in_a_plan() {
    let row = "'column', a function, 'choose', 'output' or 'where'";
    plan_says(
        "1 = column price",
        "1: found '1'; expected 0, the number of this row",
    );
    plan_says(
        "x = column price",
        "1: found 'x'; expected the number of this row",
    );
    plan_says(
        "column Address",
        "1: found 'Address'; expected a column, or a label that some column has",
    );
    plan_says("prices", &format!("1: found 'prices'; expected {row}"));
    plan_says("output", &format!("1: found 'output'; expected {row}"));
    plan_says(
        "column price x",
        "1: found 'x'; expected the end of the line",
    );
    plan_says(
        "max(0)",
        "1: found 'max'; expected a function that the book has",
    );
    plan_says("avg()", "1: found ')'; expected the number of a row");
    plan_says("concat(0, 1, 2)", "1: found ','; expected ')'");
    plan_says(
        "concat(0, 255)",
        "1: found row 255; expected a number up to 63",
    );
    plan_says("choose 0 : 1", "1: found ':'; expected '?'");
    plan_says("choose 0 ? 1", "1: found the end of the line; expected ':'");
    plan_says(
        "output price",
        "1: found 'price'; expected the number of a row",
    );
}

#[test]
fn plans_that_the_engine_refuses() {
    let above = "named by row 1; expected a row above it";
    plan_says(
        "price\n\navg(1)",
        &format!("3: refused 22: found row 1 {above}"),
    );
    plan_says(
        "price\nchoose 0 ? 0 : 7",
        &format!("2: refused 22: found row 7 {above}"),
    );
    plan_says(
        "price\noutput 0\nwhere 1",
        "3: refused 22: found row 1 named by row 2, which gives no value; \
         expected a column, a function or a choice",
    );
    let rows = "price\n".repeat(65);
    plan_says(&rows, "65: refused 21: found 65 rows; expected at most 64");
}

#[test]
fn a_refused_book_and_its_names() {
    let folder = shop("refused");
    let mut book = fs::read(folder.join("shop.book")).expect("it is there");
    book[512 * 5 + 2] = 1;
    fs::write(folder.join("changed.book"), &book).expect("it is written");
    let complaint =
        "changed.book: refused 2 at block 5: a block has a wrong check (block 5 is rule 1)\n";
    for command in ["show", "report"] {
        let ran = run(&folder, &[command, "changed.book"]);
        assert_eq!(ran, (1, String::new(), complaint.to_string()));
    }
}

/// Two policies with equal head blocks, as the two users stand in another order.
#[test]
fn names_of_another_book() {
    let folder = folder("another");
    let policy = |users: &str| {
        format!(
            "users\n  Analyst\n{users}data\n  Price\ncolumns\n  price: Price\n\
             rules\n  Report, [access Price] => forbid\n"
        )
    };
    let (one, other) = ("    Report\n    Marketing\n", "    Marketing\n    Report\n");
    for (name, users) in [("one", one), ("other", other)] {
        let file = format!("{name}.pspec");
        fs::write(folder.join(&file), policy(users)).expect("it is written");
        let (status, _, _) = run(&folder, &["build", &file, "-o", &format!("{name}.book")]);
        assert_eq!(status, 0);
    }
    fs::write(folder.join("p.txt"), "price\noutput 0\n").expect("it is written");
    let judge = ["judge", "one.book", "Report", "p.txt"];
    assert_eq!(run(&folder, &judge).0, 1);
    fs::copy(
        folder.join("other.book.names"),
        folder.join("one.book.names"),
    )
    .expect("it is copied");
    let (status, answer, complaint) = run(&folder, &judge);
    assert_eq!((status, answer.as_str()), (2, ""));
    let found = "one.book.names:6: found other bytes than the book has in block 4: ";
    assert!(complaint.starts_with(found), "{complaint}");
}

/// The complaint about a names file with one part changed.
fn names_say(from: &str, to: &str, message: &str) {
    let folder = shop(&format!("names-{from}-{to}").replace(['\n', ' '], ""));
    let names = text_of(&folder, "shop.book.names");
    assert!(names.contains(from));
    fs::write(folder.join("shop.book.names"), names.replacen(from, to, 1)).expect("it is written");
    let complaint = format!("shop.book.names:{message}\n");
    assert_eq!(
        run(&folder, &["report", "shop.book"]),
        (2, String::new(), complaint)
    );
}

#[test]
fn mistakes_in_a_names_file() {
    names_say(
        "  City\n",
        "",
        "13: found 4 names of data; expected 5, as in the book",
    );
    names_say(
        "  City\n",
        "  State\n",
        "17: found 'State' a second time; expected each name once",
    );
    names_say(
        "  City\n",
        "  New City\n",
        "17: found 'City'; expected the end of the line",
    );
    names_say("data\n", "dates\n", "13: found 'dates'; expected 'data'");
    let advice = "these are not its names. \
                  Build the book again, or delete this file to see numbers";
    names_say(
        "book\n",
        "checks 0007\n",
        &format!("1: found 'checks 0007'; expected 'book' and the bytes of the book: {advice}"),
    );
    names_say(
        "  0103\n",
        "",
        &format!("2: found other bytes than the book has in block 0: {advice}"),
    );
    names_say(
        "users\n",
        "  05\nusers\n",
        &format!("1: found 8 blocks; expected 7, as in the book: {advice}"),
    );
}

#[test]
fn wrong_arguments_and_files() {
    let folder = folder("arguments");
    let complains = |arguments: &[&str], message: &str| {
        let (status, answer, complaint) = run(&folder, arguments);
        assert_eq!((status, answer.as_str()), (2, ""));
        assert!(complaint.starts_with(message), "{complaint}");
    };
    complains(&[], "found no command\n\npspec-book build ");
    complains(
        &["look"],
        "found 'look'; expected a command\n\npspec-book build ",
    );
    complains(
        &["build", "x"],
        "found 'build x'; expected build POLICY -o BOOK\n'pspec-book build --help' says more\n",
    );
    complains(&["show"], "found 'show'; expected show BOOK\n");
    complains(&["report", "no.book"], "no.book: can't be read: ");
    complains(
        &["build", "no.pspec", "-o", "x.book"],
        "no.pspec: can't be read: ",
    );
    let policy = file("examples/small-shop.pspec").display().to_string();
    complains(
        &["build", &policy, "-o", "none/x.book"],
        "none/x.book: can't be written: ",
    );
}

#[test]
fn help_and_version() {
    let folder = folder("help");
    let says = |arguments: &[&str], text: &str| {
        let (status, answer, complaint) = run(&folder, arguments);
        assert_eq!((status, complaint.as_str()), (0, ""));
        assert!(answer.contains(text), "{answer}");
    };
    says(&["help"], "are tried by tests only");
    says(&["--help"], "pspec-book judge BOOK USER PLAN");
    for asked in [["report", "--help"], ["report", "-h"], ["help", "report"]] {
        says(&asked, "pspec-book report BOOK");
    }
    says(
        &["judge", "no.book", "--help"],
        "pspec-book judge BOOK USER PLAN",
    );
    let version = concat!("pspec-book ", env!("CARGO_PKG_VERSION"), "\n").to_string();
    assert_eq!(run(&folder, &["--version"]), (0, version, String::new()));
}

/// A file whose name starts with '-' stands after '--'; options may stand anywhere before it.
#[test]
fn options_and_files() {
    let folder = shop("options");
    fs::copy(folder.join("shop.pspec"), folder.join("-shop")).expect("it is copied");
    let built = run(&folder, &["build", "-o", "x.book", "--", "-shop"]);
    assert_eq!(built.0, 0);
    for wrong in [
        &["build", "-shop", "-o", "x.book"][..],
        &["build", "shop.pspec", "-o"],
        &["build", "shop.pspec", "-o", "x", "-o", "y"],
        &["build", "shop.pspec", "other.pspec", "-o", "x"],
        &["show", "shop.book", "--json"],
    ] {
        let (status, answer, complaint) = run(&folder, wrong);
        assert_eq!((status, answer.as_str()), (2, ""));
        assert!(complaint.starts_with("found '"), "{complaint}");
    }
}

#[test]
fn one_rule() {
    let folder = folder("one-rule");
    let policy = "users\n  A\ndata\n  D\nrules\n  A, [access D] => forbid\n";
    fs::write(folder.join("p.pspec"), policy).expect("it is written");
    let (_, answer, _) = run(&folder, &["build", "p.pspec", "-o", "p.book"]);
    assert_eq!(answer, "p.book: 5 blocks, 1 rule; names in p.book.names\n");
}

#[test]
fn all_mistakes_of_a_plan() {
    let complaint = "p.txt:1: found 'prices'; expected 'column', a function, 'choose', 'output' \
                     or 'where'\np.txt:3: found 'x'; expected the number of a row\n";
    let judged = judged("Report", "prices\nprice\noutput x\noutput 1\n");
    assert_eq!(judged, (1, String::new(), complaint.to_string()));
}

#[test]
fn a_mistake_has_its_file_and_line() {
    let folder = folder("mistake");
    fs::write(
        folder.join("bad.pspec"),
        "users\n  A\ndata\n  D\nrules\n  A, [read D] => forbid\n  B, [access D] => forbid\n",
    )
    .expect("it is written");
    let complaint = "bad.pspec:6: found 'read'; expected projection, condition or access\n\
                     bad.pspec:7: found 'B'; expected a user category that the policy names\n";
    let ran = run(&folder, &["build", "bad.pspec", "-o", "bad.book"]);
    assert_eq!(ran, (1, String::new(), complaint.to_string()));
    assert!(!folder.join("bad.book").exists());
}

#[test]
fn what_was_read_is_not_written_over() {
    let folder = shop("over");
    let complaint = "this was read; expected another file for the answer\n";
    let (status, _, said) = run(&folder, &["build", "shop.pspec", "-o", "./shop.pspec"]);
    assert!(status == 2 && said.ends_with(complaint), "{said}");
    assert_eq!(
        text_of(&folder, "shop.pspec"),
        text("examples/small-shop.pspec")
    );
    fs::write(folder.join("p.txt"), "price\n").expect("it is written");
    for wrong in [
        &["report", "shop.book", "--html", "shop.book"][..],
        &["report", "shop.book", "--html", "./shop.book.names"],
        &["encode", "shop.book", "p.txt", "-o", "p.txt"],
    ] {
        let (status, _, said) = run(&folder, wrong);
        assert!(status == 2 && said.ends_with(complaint), "{said}");
    }
}
