//! Runs the program in a folder of its own.

use crate::common::text;
use std::fs;
use std::io::Write;
use std::path::{Path, PathBuf};
use std::process::{Command, Output, Stdio};

/// A folder for one test's files.
pub fn folder(test: &str) -> PathBuf {
    let folder = PathBuf::from(env!("CARGO_TARGET_TMPDIR")).join(test);
    fs::create_dir_all(&folder).expect("it is made");
    folder
}

/// Runs the program in a folder: the status, the answer, the complaint.
pub fn run(folder: &PathBuf, arguments: &[&str]) -> (i32, String, String) {
    let program = env!("CARGO_BIN_EXE_pspec-book");
    let ran = Command::new(program)
        .args(arguments)
        .current_dir(folder)
        .output();
    said(ran.expect("it runs"))
}

/// The status, the answer and the complaint of a program that ended by itself.
pub fn said(ran: Output) -> (i32, String, String) {
    let text = |bytes| String::from_utf8(bytes).expect("it is text");
    let status = ran.status.code().expect("it ends by itself");
    (status, text(ran.stdout), text(ran.stderr))
}

/// Runs a command on an input.
pub fn fed(command: &mut Command, input: &[u8]) -> Output {
    let piped = command.stdin(Stdio::piped()).stdout(Stdio::piped());
    let mut child = piped.stderr(Stdio::piped()).spawn().expect("it runs");
    let mut to = child.stdin.take().expect("it is piped");
    // It may end before it has read all.
    to.write_all(input).ok();
    drop(to);
    child.wait_with_output().expect("it ends")
}

/// A folder with the small shop's book.
pub fn shop(test: &str) -> PathBuf {
    let folder = folder(test);
    let policy = text("examples/small-shop.pspec");
    fs::write(folder.join("shop.pspec"), policy).expect("it is written");
    let built = run(&folder, &["build", "shop.pspec", "-o", "shop.book"]);
    let said = "shop.book: 7 blocks, 3 rules; names in shop.book.names\n";
    assert_eq!(built, (0, said.to_string(), String::new()));
    folder
}

/// The text of a file in the folder.
pub fn text_of(folder: &Path, name: &str) -> String {
    fs::read_to_string(folder.join(name)).expect("it is there")
}
