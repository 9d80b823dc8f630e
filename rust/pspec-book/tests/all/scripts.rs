//! `report.sh` and `test.sh`, with a stand-in for `rt`.

use crate::common::{file, text};
use std::fs;
use std::os::unix::fs::PermissionsExt;
use std::path::{Path, PathBuf};
use std::process::Command;

/// What the scripts need of a system.
const TOOLS: [&str; 14] = [
    "bash", "cat", "chmod", "cp", "dirname", "env", "grep", "mkdir", "mktemp", "realpath", "rm",
    "sed", "tee", "true",
];

/// Proves nothing, but says what rt says. It runs in a crate's folder.
const RT: &str = "#!/bin/sh
top=$(dirname \"$0\")/..
if [ \"$1\" = version ]; then cat \"$top/kit\"; exit; fi
echo 'fn book::checking: proved'
if [ \"$1\" = run ]; then
    mkdir -p out
    printf '#!/bin/sh\\ncat small.book\\n' > out/policyreport
    chmod +x out/policyreport
fi
exit $(cat \"$top/status\")
";

/// The libraries that the report stands on.
const BELOW: [&str; 4] = ["book", "lineage", "verdicts", "search"];

fn in_path(tool: &str) -> Option<PathBuf> {
    let path = std::env::var_os("PATH")?;
    std::env::split_paths(&path)
        .map(|folder| folder.join(tool))
        .find(|file| file.is_file())
}

/// A copy of what the scripts touch, with tools of its own.
fn repository(test: &str) -> PathBuf {
    let folder = PathBuf::from(env!("CARGO_TARGET_TMPDIR")).join(test);
    fs::remove_dir_all(&folder).ok();
    for made in ["tools", "crates/policyreport/data", "rust"] {
        fs::create_dir_all(folder.join(made)).expect("it is made");
    }
    for below in BELOW {
        fs::create_dir_all(folder.join("crates").join(below)).expect("it is made");
    }
    for name in [
        "report.sh",
        "test.sh",
        "kit.sh",
        "kit.txt",
        "rust/Cargo.toml",
    ] {
        fs::copy(file(name), folder.join(name)).expect("it is copied");
    }
    for tool in TOOLS {
        let from = in_path(tool).expect("it is a usual tool");
        fs::copy(from, folder.join("tools").join(tool)).expect("it is copied");
    }
    put(
        &folder,
        "crates/policyreport/data/small.book",
        "the small shop\n",
    );
    put(&folder, "tools/rt", RT);
    put(&folder, "kit", &text("kit.txt"));
    put(&folder, "status", "0");
    let runs = fs::Permissions::from_mode(0o755);
    fs::set_permissions(folder.join("tools/rt"), runs).expect("it may run");
    folder
}

fn put(folder: &Path, name: &str, text: &str) {
    fs::write(folder.join(name), text).expect("it is written");
}

/// Runs a script: the status, the answer, the complaint.
fn run(folder: &Path, script: &[&str]) -> (i32, String, String) {
    let ran = Command::new(folder.join("tools/bash"))
        .args(script)
        .env("PATH", folder.join("tools"))
        .current_dir(folder)
        .output()
        .expect("it runs");
    let text = |bytes| String::from_utf8(bytes).expect("it is text");
    let status = ran.status.code().expect("it ends by itself");
    (status, text(ran.stdout), text(ran.stderr))
}

/// What a script says while it proves: the crates, each with its seconds, which are left out here.
const PROVED: &str = "proving and building the report: some minutes the first time\n\
                      rt: book proved\nrt: lineage proved\nrt: verdicts proved\n\
                      rt: search proved\nrt: policyreport proved\n";

fn without_seconds(complaint: &str) -> String {
    let line = |line: &str| match line.split_once(" proved (") {
        Some((name, seconds)) if seconds.ends_with(" s)") => format!("{name} proved\n"),
        _ => format!("{line}\n"),
    };
    complaint.lines().map(line).collect()
}

#[test]
fn a_report_of_this_book_or_that() {
    let folder = repository("scripts-report");
    let (status, answer, complaint) = run(&folder, &["report.sh"]);
    assert_eq!((status, answer.as_str()), (0, "the small shop\n"));
    assert_eq!(without_seconds(&complaint), PROVED);
    put(&folder, "other.book", "another\n");
    let (status, answer, _) = run(&folder, &["report.sh", "other.book"]);
    assert_eq!((status, answer.as_str()), (0, "another\n"));
    let log = fs::read_to_string(folder.join("target/log/report")).expect("it is there");
    assert!(log.contains("fn book::checking: proved"));
}

#[test]
fn what_is_no_book() {
    let folder = repository("scripts-no-book");
    let complains = |book: &str, complaint: &str| {
        let said = run(&folder, &["report.sh", book]);
        assert_eq!(said, (2, String::new(), complaint.to_string()));
    };
    complains(
        "no.book",
        "no.book: there is no such file, or it can't be read\n",
    );
    complains("tools", "tools: found a folder; expected a book\n");
    let (status, _, _) = run(&folder, &["report.sh", "a", "b"]);
    assert_eq!(status, 2);
    let small = "crates/policyreport/data/small.book";
    fs::remove_file(folder.join(small)).expect("it was there");
    let (status, answer, complaint) = run(&folder, &["report.sh"]);
    assert_eq!((status, answer.as_str()), (2, ""));
    let missing = format!("{small}: there is no such file, or it can't be read\n");
    assert!(complaint.ends_with(&missing), "{complaint}");
}

#[test]
fn what_is_not_proved() {
    let folder = repository("scripts-not-proved");
    put(&folder, "status", "1");
    let (status, answer, complaint) = run(&folder, &["report.sh"]);
    assert_eq!((status, answer.as_str()), (1, ""));
    assert!(complaint.ends_with("not proved: target/log/report says why\n"));
}

#[test]
fn another_kit_and_none() {
    let folder = repository("scripts-kit");
    put(&folder, "kit", "rattle-kit-0 logic 0\n");
    let (status, _, complaint) = run(&folder, &["report.sh"]);
    let another = "and here is 'rattle-kit-0 logic 0'\n";
    assert!(status == 0 && complaint.contains(another), "{complaint}");
    fs::remove_file(folder.join("tools/rt")).expect("it was there");
    let missing = format!("install the Rattle kit ({})", text("kit.txt").trim());
    for script in ["report.sh", "test.sh"] {
        let (status, answer, complaint) = run(&folder, &[script]);
        assert_eq!((status, answer.as_str()), (2, ""));
        assert!(complaint.contains(&missing), "{complaint}");
    }
    let (_, _, complaint) = run(&folder, &["test.sh"]);
    assert!(complaint.contains("cargo is not on the path"));
}

/// The README names the kit, and the scripts may be run as they are.
#[test]
fn the_readme_names_the_kit() {
    assert!(text("README.md").contains(text("kit.txt").trim()));
    for script in ["report.sh", "test.sh"] {
        let mode = fs::metadata(file(script))
            .expect("it is there")
            .permissions();
        assert_eq!(mode.mode() & 0o100, 0o100, "{script}");
    }
}
