//! Policies as text: see `pspec-book help`.

use pspec_book::command::{run, Outcome};
use pspec_book::fault::Fault;
use std::ffi::OsString;
use std::io;
use std::process::ExitCode;

fn main() -> ExitCode {
    let words: Result<Vec<String>, OsString> = std::env::args_os()
        .skip(1)
        .map(OsString::into_string)
        .collect();
    let ran = match words {
        Ok(words) => run(&words, &mut io::stdout().lock()),
        Err(word) => Err(Fault::File(format!(
            "{word:?}: found a word that is no text"
        ))),
    };
    ExitCode::from(status(ran))
}

/// The exit status, after what there is to complain about.
fn status(ran: Result<Outcome, Fault>) -> u8 {
    match ran {
        Ok(Outcome::Fine) => 0,
        Ok(Outcome::Broken | Outcome::NotDone) => 1,
        Ok(Outcome::Idle | Outcome::Blocked) => 3,
        Ok(Outcome::Unwritten) => 4,
        Err(Fault::Refused(why)) => {
            eprintln!("{why}");
            1
        }
        Err(Fault::File(why) | Fault::Usage(why)) => {
            eprintln!("{why}");
            2
        }
    }
}
