//! The editor's file: written whole or not at all, and its answers as JSON.

use crate::common::text;
use crate::running::{fed, folder, said, text_of};
use std::collections::BTreeMap;
use std::fs::{self, Permissions};
use std::iter::Peekable;
use std::os::unix::fs::{symlink, PermissionsExt};
use std::os::unix::process::{CommandExt, ExitStatusExt};
use std::path::{Path, PathBuf};
use std::process::Command;
use std::str::Chars;

const PROGRAM: &str = env!("CARGO_BIN_EXE_pspec-book");
const POLICY: &str = "examples/tpc-ds.pspec";
const EDITS: &[u8] = b"delete 12\nwrite\nadd Analyst, [access Item] => forbid\n";
const RULE: &str = "  Analyst, [access QI, access Price] => [{}, {sum, count, avg, min, max}]\n";

/// A folder of its own with a policy under this name.
fn with_policy(test: &str, name: &str) -> PathBuf {
    let folder = folder(test);
    fs::remove_dir_all(&folder).expect("it was there");
    fs::create_dir_all(&folder).expect("it is made");
    fs::write(folder.join(name), text(POLICY)).expect("it is written");
    folder
}

/// The names of a folder's files.
fn files(folder: &Path) -> Vec<String> {
    let files = fs::read_dir(folder).expect("it is there");
    let name = |entry: fs::DirEntry| entry.file_name().to_string_lossy().to_string();
    files
        .map(|entry| name(entry.expect("it is there")))
        .collect()
}

/// That the edits were not written, after the complaint about it.
fn is_not_written(folder: &Path, name: &str, ran: (i32, String, String)) {
    let (status, answer, complaint) = ran;
    assert!(status == 4 && !answer.contains("written"), "{answer}");
    let cant = format!("{name}: can't be written: ");
    assert!(complaint.starts_with(&cant), "{complaint}");
    assert!(complaint.ends_with(&format!("{name}: 2 edits not written\n")));
    assert_eq!(text_of(folder, name), text(POLICY));
    assert_eq!(files(folder), [name]);
}

fn edit(folder: &Path, name: &str) -> (i32, String, String) {
    said(fed(
        Command::new(PROGRAM)
            .args(["edit", name])
            .current_dir(folder),
        EDITS,
    ))
}

/// A link stays one, and what it leads to has its permissions still.
#[test]
fn what_stays_of_a_file() {
    let folder = with_policy("edit-link", "p.pspec");
    symlink("p.pspec", folder.join("link")).expect("it is linked");
    let private = Permissions::from_mode(0o640);
    fs::set_permissions(folder.join("p.pspec"), private).expect("it is set");
    let (status, _, complaint) = edit(&folder, "link");
    assert_eq!(
        (status, complaint.as_str()),
        (4, "link: 1 edit not written\n")
    );
    assert!(folder.join("link").is_symlink());
    assert_eq!(text_of(&folder, "p.pspec"), text(POLICY).replace(RULE, ""));
    let mode = fs::metadata(folder.join("p.pspec"))
        .expect("it is there")
        .permissions()
        .mode();
    assert_eq!(mode & 0o777, 0o640);
    // rt takes no link below the repository
    fs::remove_file(folder.join("link")).expect("it was there");
}

/// What others wrote meanwhile is not written over.
#[test]
fn what_others_wrote_stays() {
    let folder = with_policy("edit-others", "p.pspec");
    let path = folder.join("p.pspec").display().to_string();
    let mut editor = pspec_book::editor::Editor::open(&path).expect("it is a policy");
    editor.carry_out(1, "delete 12").expect("it is there");
    let others = text(POLICY).replace("# sensitive attributes", "");
    fs::write(&path, &others).expect("it is written");
    let why = editor
        .carry_out(2, "write")
        .expect_err("it has changed")
        .text();
    assert!(
        why.starts_with(&format!("{path}: found another text than was read; ")),
        "{why}"
    );
    assert_eq!(
        (text_of(&folder, "p.pspec"), editor.unwritten()),
        (others, 1)
    );
    fs::write(&path, text(POLICY)).expect("it is written");
    editor.carry_out(3, "write").expect("it is as it was read");
    assert_eq!(text_of(&folder, "p.pspec"), text(POLICY).replace(RULE, ""));
}

/// A folder in which no file can be made for the new text, here as its name is too long.
#[test]
fn a_folder_that_takes_no_file() {
    let name = "p".repeat(250);
    let folder = with_policy("edit-long", &name);
    let ran = edit(&folder, &name);
    is_not_written(&folder, &name, ran);
}

/// Who runs the tests may be allowed to write everywhere: then another user tries, if that can be had.
#[test]
fn a_read_only_folder() {
    let folder = with_policy("edit-read-only", "p.pspec");
    let set = |path: &Path, mode| {
        fs::set_permissions(path, Permissions::from_mode(mode)).expect("it is set");
    };
    set(&folder.join("p.pspec"), 0o666);
    set(&folder, 0o555);
    let everywhere = fs::write(folder.join("any"), "").is_ok();
    let command = |arguments: &[&str]| {
        let mut command = Command::new(PROGRAM);
        command.args(arguments).current_dir(&folder);
        if everywhere {
            command.uid(65_534).gid(65_534);
        }
        command
    };
    fs::remove_file(folder.join("any")).ok();
    let runs = command(&["--version"]).output().is_ok();
    let ran = runs.then(|| said(fed(&mut command(&["edit", "p.pspec"]), EDITS)));
    set(&folder, 0o755);
    if let Some(ran) = ran {
        is_not_written(&folder, "p.pspec", ran);
    }
}

/// The program in a shell that lets it write a file of one block and no more.
fn with_limit(folder: &Path, first: &str) -> Command {
    let mut shell = Command::new("sh");
    let script = format!("{first} ulimit -f 1 && exec \"$0\" edit p.pspec");
    shell.args(["-c", &script, PROGRAM]).current_dir(folder);
    shell
}

/// A write that is interrupted in its middle leaves the policy as it was, and the next one is carried out.
#[test]
fn an_interrupted_write() {
    let folder = with_policy("edit-stopped", "p.pspec");
    let ran = fed(&mut with_limit(&folder, ""), EDITS);
    let too_large = 25;
    assert_eq!(ran.status.signal(), Some(too_large));
    assert_eq!(text_of(&folder, "p.pspec"), text(POLICY));
    let half = files(&folder).into_iter().find(|name| name != "p.pspec");
    let half = fs::read(folder.join(half.expect("it was begun"))).expect("it is there");
    let wanted = text(POLICY).replace(RULE, "");
    assert!(!half.is_empty() && half.len() < wanted.len());
    assert_eq!(edit(&folder, "p.pspec").0, 4);
    assert_eq!(text_of(&folder, "p.pspec"), wanted);
}

/// The same where the system only says that there is no room.
#[test]
fn a_write_without_room() {
    let folder = with_policy("edit-room", "p.pspec");
    let ran = said(fed(&mut with_limit(&folder, "trap '' XFSZ;"), EDITS));
    is_not_written(&folder, "p.pspec", ran);
}

/// A value of a line of JSON.
#[derive(Clone, Debug, PartialEq)]
enum Value {
    Null,
    Bool(bool),
    Number(usize),
    Text(String),
    List(Vec<Value>),
    Object(BTreeMap<String, Value>),
}

/// Reads a line of JSON, which must have nothing behind it.
fn parsed(line: &str) -> BTreeMap<String, Value> {
    let mut chars = line.chars().peekable();
    let value = value(&mut chars);
    assert_eq!(chars.next(), None, "{line}");
    match value {
        Value::Object(fields) => fields,
        other => panic!("{other:?}"),
    }
}

fn value(chars: &mut Peekable<Chars>) -> Value {
    match chars.peek() {
        Some('"') => Value::Text(quoted(chars)),
        Some('[') => Value::List(listed(chars, ']', value)),
        Some('{') => {
            let field = |chars: &mut Peekable<Chars>| {
                let name = quoted(chars);
                assert_eq!(chars.next(), Some(':'));
                (name, value(chars))
            };
            Value::Object(listed(chars, '}', field).into_iter().collect())
        }
        _ => {
            let word: String =
                std::iter::from_fn(|| chars.next_if(|c| c.is_alphanumeric())).collect();
            match word.as_str() {
                "null" => Value::Null,
                "true" | "false" => Value::Bool(word == "true"),
                _ => Value::Number(word.parse().expect("it is a number")),
            }
        }
    }
}

fn listed<T>(
    chars: &mut Peekable<Chars>,
    end: char,
    one: impl Fn(&mut Peekable<Chars>) -> T,
) -> Vec<T> {
    let mut all = Vec::new();
    chars.next();
    while chars.next_if_eq(&end).is_none() {
        all.push(one(chars));
        if chars.peek() != Some(&end) {
            assert_eq!(chars.next(), Some(','));
        }
    }
    all
}

fn quoted(chars: &mut Peekable<Chars>) -> String {
    assert_eq!(chars.next(), Some('"'));
    let mut text = String::new();
    loop {
        match chars.next().expect("it ends") {
            '"' => return text,
            '\\' => text.push(match chars.next() {
                Some('u') => {
                    let digits: String = chars.by_ref().take(4).collect();
                    let code = u32::from_str_radix(&digits, 16).expect("it is a code");
                    char::from_u32(code).expect("it is a character")
                }
                other => other.expect("it goes on"),
            }),
            c => text.push(c),
        }
    }
}

fn numbers(of: &[usize]) -> Value {
    Value::List(of.iter().map(|&number| Value::Number(number)).collect())
}

/// The small shop after these lines: the status, and the object of each.
fn objects(test: &str, lines: &str) -> (i32, Vec<BTreeMap<String, Value>>) {
    let folder = folder(test);
    let policy = text("examples/small-shop.pspec");
    fs::write(folder.join("p.pspec"), policy).expect("it is written");
    let mut command = Command::new(PROGRAM);
    command
        .args(["edit", "--json", "p.pspec"])
        .current_dir(&folder);
    let (status, answer, complaint) = said(fed(&mut command, lines.as_bytes()));
    assert_eq!(complaint, "");
    let objects: Vec<_> = answer.lines().map(parsed).collect();
    for (i, object) in objects.iter().enumerate() {
        assert_eq!(object["line"], Value::Number(i + 1));
    }
    assert_eq!(objects.len(), lines.lines().count());
    (status, objects)
}

fn word(text: &str) -> Value {
    Value::Text(text.to_string())
}

#[test]
fn an_object_for_each_line() {
    let lines = "list\ndelete 1\n\nwhy 0\nadd Analyst, [access Price] => [{avg}]\nwhy 1\nhelp\nwrite\nquit\n";
    let (status, answers) = objects("edit-json", lines);
    assert_eq!(status, 0);
    let commands = [
        "list", "delete", "", "why", "add", "why", "help", "write", "quit",
    ];
    for (answer, command) in answers.iter().zip(commands) {
        assert_eq!(answer["done"], Value::Bool(true));
        let wanted = if command.is_empty() {
            Value::Null
        } else {
            word(command)
        };
        assert_eq!(answer["command"], wanted);
    }
    let has =
        |i: usize, name: &str, value: Value| assert_eq!(answers[i][name], value, "{i} {name}");
    has(0, "marks", numbers(&[0, 2]));
    has(0, "unwritten", Value::Number(0));
    has(1, "now_needed", numbers(&[0, 1]));
    has(1, "marks", numbers(&[]));
    has(3, "idle", Value::Bool(false));
    has(3, "user", word("Marketing"));
    has(4, "number", Value::Number(2));
    has(4, "now_idle", numbers(&[0, 1]));
    has(4, "marks", numbers(&[0, 1]));
    has(5, "idle", Value::Bool(true));
    has(5, "covered_by", numbers(&[2]));
    assert!(matches!(&answers[6]["text"], Value::Text(help) if help.contains("delete N")));
    has(7, "file", word("p.pspec"));
    has(7, "edits", Value::Number(2));
}

#[test]
fn an_object_for_each_line_that_is_not_carried_out() {
    let lines = "add \"x\nadd Report, [access Price] => [{max}]\ndelete 3\ndelete 0\nquit\nquit\n";
    let (status, answers) = objects("edit-json-refused", lines);
    assert_eq!(status, 1);
    let has =
        |i: usize, name: &str, value: Value| assert_eq!(answers[i][name], value, "{i} {name}");
    for (i, refused) in [Value::Null, Value::Number(9), Value::Number(24)]
        .into_iter()
        .enumerate()
    {
        has(i, "done", Value::Bool(false));
        has(i, "refused", refused);
    }
    has(
        0,
        "why",
        word("found '\"'; expected a user category that the policy names"),
    );
    has(3, "done", Value::Bool(true));
    has(4, "done", Value::Bool(false));
    has(4, "refused", Value::Null);
    has(5, "command", word("quit"));
}
