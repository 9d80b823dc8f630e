//! The example of the README, copied into a crate outside the workspace.

use std::fs;
use std::path::{Path, PathBuf};
use std::process::Command;

/// The text of a fence of the README.
fn fenced<'a>(text: &'a str, fence: &str) -> &'a str {
    let start = text.find(fence).expect("it is there") + fence.len() + 1;
    let end = text[start..].find("```").expect("it ends");
    &text[start..start + end]
}

fn crate_with(main: &str, pspec: &Path) -> PathBuf {
    let folder = PathBuf::from(env!("CARGO_TARGET_TMPDIR")).join("outside");
    fs::create_dir_all(folder.join("src")).expect("it is made");
    let manifest = format!(
        "[package]\nname = \"outside\"\nversion = \"0.1.0\"\nedition = \"2021\"\n\n\
         [dependencies]\npspec = {{ path = {:?} }}\n\n[workspace]\n",
        pspec
    );
    fs::write(folder.join("Cargo.toml"), manifest).expect("it is written");
    fs::write(folder.join("src/main.rs"), main).expect("it is written");
    folder
}

#[test]
fn the_example_runs_in_another_crate() {
    let pspec = Path::new(env!("CARGO_MANIFEST_DIR"));
    let readme = fs::read_to_string(pspec.join("README.md")).expect("it is there");
    let folder = crate_with(fenced(&readme, "```rust,no_run"), pspec);
    let book = pspec.join("../../crates/policyreport/data/small.book");
    fs::copy(book, folder.join("shop.book")).expect("it is copied");
    let ran = Command::new(env!("CARGO"))
        .args(["run", "--offline", "--quiet"])
        .env("CARGO_TARGET_DIR", folder.join("target"))
        .current_dir(&folder)
        .output()
        .expect("cargo runs");
    let complaint = String::from_utf8_lossy(&ran.stderr);
    assert!(ran.status.success(), "{complaint}");
    let said = String::from_utf8_lossy(&ran.stdout);
    assert_eq!(said, fenced(&readme, "```text"));
}

/// The part of the example that the repository's README shows.
#[test]
fn the_readme_shows_a_part_of_it() {
    let pspec = Path::new(env!("CARGO_MANIFEST_DIR"));
    let text = |path| fs::read_to_string(pspec.join(path)).expect("it is there");
    let (whole, part) = (text("README.md"), text("../../README.md"));
    assert!(whole.contains(fenced(&part, "```rust")));
}
