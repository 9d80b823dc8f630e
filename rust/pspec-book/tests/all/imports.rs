//! No two modules of a crate need each other.

use crate::common::file;
use std::collections::{BTreeMap, BTreeSet};
use std::fs;

type Imports = BTreeMap<String, BTreeSet<String>>;

/// What each module of a crate imports, by the words after `crate::`.
fn imports(name: &str) -> Imports {
    let folder = fs::read_dir(file(&format!("rust/{name}/src"))).expect("it is there");
    let files = folder.map(|entry| entry.expect("it is there").path());
    let mut imports = Imports::new();
    for file in files {
        let text = fs::read_to_string(&file).expect("it is text");
        let module = file.file_stem().expect("it has a name").to_string_lossy();
        let words = text.split("crate::").skip(1);
        let end = |c: char| !c.is_alphanumeric() && !c.is_whitespace() && c != '_' && c != ',';
        let named = words.flat_map(|rest| {
            let rest = rest.trim_start_matches('{');
            let list = &rest[..rest.find(end).unwrap_or(rest.len())];
            list.split(',').map(|word| word.trim().to_string())
        });
        imports.insert(module.to_string(), named.collect());
    }
    imports.remove("lib");
    imports
}

/// The modules that a module needs, through others too.
fn needed<'a>(module: &'a str, imports: &'a Imports, found: &mut BTreeSet<&'a str>) {
    for next in imports.get(module).into_iter().flatten() {
        if imports.contains_key(next) && next != module && found.insert(next) {
            needed(next, imports, found);
        }
    }
}

#[test]
fn there_are_no_circles() {
    for name in ["against", "bench", "books", "pspec", "pspec-book", "second"] {
        let imports = imports(name);
        for module in imports.keys() {
            let mut found = BTreeSet::new();
            needed(module, &imports, &mut found);
            assert!(!found.contains(module.as_str()), "{name}: {module}");
        }
    }
}
