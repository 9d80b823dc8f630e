//! Books, names and texts in files.

use crate::contents::Contents;
use crate::fault::Fault;
use crate::named::NamedBook;
use crate::names::Names;
use pspec::Book;
use std::ffi::OsString;
use std::fs::{self, File};
use std::io::{self, ErrorKind, Write};
use std::path::{Path, PathBuf};

/// Opens a book and the names beside it.
pub fn open(path: &str) -> Result<NamedBook, Fault> {
    let bytes = fs::read(path).map_err(|why| unreadable(path, &why))?;
    let book = Book::new(bytes).map_err(|refusal| {
        let rule = match refusal.place() {
            block @ 4.. => format!(" (block {block} is rule {})", block - 4),
            _ => String::new(),
        };
        Fault::Refused(format!("{path}: {refusal}{rule}"))
    })?;
    let file = names_file(path);
    let names = match fs::read_to_string(&file) {
        Ok(text) => Names::read(&text, &book)
            .map_err(|mistake| Fault::File(format!("{}:{mistake}", file.display())))?,
        Err(why) if why.kind() == ErrorKind::NotFound => Names::numbered(&Contents::of(&book)),
        Err(why) => return Err(unreadable(&file.display().to_string(), &why)),
    };
    Ok(NamedBook::new(book, names))
}

/// Writes a book and the names beside it, but not over the policy; gives the names' file.
pub fn keep(policy: &str, path: &str, named: &NamedBook) -> Result<PathBuf, Fault> {
    let names = names_file(path);
    spared(policy, Path::new(path))?;
    spared(policy, &names)?;
    write(Path::new(path), named.book.bytes())?;
    write(&names, named.names.text(&named.book).as_bytes())?;
    Ok(names)
}

/// The book's path with `.names` after it.
fn names_file(book: &str) -> PathBuf {
    let mut name = OsString::from(book);
    name.push(".names");
    PathBuf::from(name)
}

/// Refuses to write over what was read.
fn spared(read: &str, target: &Path) -> Result<(), Fault> {
    match (fs::canonicalize(read), fs::canonicalize(target)) {
        (Ok(read), Ok(target)) if read == target => {
            let path = read.display();
            Err(Fault::File(format!(
                "{path}: this was read; expected another file for the answer"
            )))
        }
        _ => Ok(()),
    }
}

/// Reads a text.
pub fn read_text(path: &str) -> Result<String, Fault> {
    fs::read_to_string(path).map_err(|why| unreadable(path, &why))
}

fn unreadable(path: &str, why: &io::Error) -> Fault {
    Fault::File(format!("{path}: can't be read: {why}"))
}

/// Writes an answer to a file, but not over what was read for it.
pub fn answer(path: &str, bytes: &[u8], read: &[&str]) -> Result<(), Fault> {
    let path = Path::new(path);
    for file in read {
        spared(file, path)?;
        spared(&names_file(file).to_string_lossy(), path)?;
    }
    write(path, bytes)
}

/// Writes a file anew. The bytes go to another file in the same folder, which then takes its name: whatever
/// happens meanwhile, the file has the old bytes or the new ones, and never a part of them.
pub fn replace(path: &str, bytes: &[u8]) -> Result<(), Fault> {
    replaced(path, bytes).map_err(|why| Fault::File(format!("{path}: can't be written: {why}")))
}

fn replaced(path: &str, bytes: &[u8]) -> io::Result<()> {
    // A link stays one, and what it leads to is replaced.
    let target = fs::canonicalize(path)?;
    // A file that may not be written is not replaced either.
    let target_file = File::options().write(true).open(&target)?;
    let permissions = target_file.metadata()?.permissions();
    let (beside, mut file) = new_beside(&target)?;
    let written = file
        .set_permissions(permissions)
        .and_then(|()| file.write_all(bytes))
        .and_then(|()| file.sync_all())
        .and_then(|()| fs::rename(&beside, &target));
    if written.is_err() {
        fs::remove_file(&beside).ok();
    }
    written?;
    // So that the new name outlasts a power cut. Where a folder can't be stored the file is whole all the same.
    let folder = target.parent().map(File::open);
    folder.and_then(|folder| folder.ok()?.sync_all().ok());
    Ok(())
}

/// How many names are tried for a new file. Interrupted writes may have left some.
const NAMES: usize = 1000;

/// A new file in the same folder, under a name that no other has.
fn new_beside(target: &Path) -> io::Result<(PathBuf, File)> {
    let name = target.file_name().unwrap_or_default().to_os_string();
    let mut taken = io::Error::from(ErrorKind::AlreadyExists);
    for number in 0..NAMES {
        let mut new = OsString::from(".");
        new.push(&name);
        new.push(format!(".{number}.new"));
        let path = target.with_file_name(new);
        match File::options().write(true).create_new(true).open(&path) {
            Ok(file) => return Ok((path, file)),
            Err(why) if why.kind() == ErrorKind::AlreadyExists => taken = why,
            Err(why) => return Err(why),
        }
    }
    Err(taken)
}

fn write(path: &Path, bytes: &[u8]) -> Result<(), Fault> {
    let unwritable = |why| Fault::File(format!("{}: can't be written: {why}", path.display()));
    fs::write(path, bytes).map_err(unwritable)
}
