//! The words of the command line.

use crate::phrases::shown;

/// A command: what stands after its name, and what it does.
#[derive(Debug, PartialEq, Eq)]
pub struct Command {
    /// Its name.
    pub name: &'static str,
    /// Its operands, in order. One that ends in dots may be given several times.
    pub operands: &'static [&'static str],
    /// Its options.
    pub options: &'static [Flag],
    /// What it does, in a few words.
    pub about: &'static str,
}

/// An option of a command.
#[derive(Debug, PartialEq, Eq)]
pub struct Flag {
    /// The word, as `--json`.
    pub word: &'static str,
    /// The name of the value that follows it, if one does.
    pub value: Option<&'static str>,
    /// Whether the command needs it.
    pub needed: bool,
    /// What it does.
    pub about: &'static str,
}

impl Flag {
    const fn new(word: &'static str, about: &'static str) -> Flag {
        Flag {
            word,
            value: None,
            needed: false,
            about,
        }
    }

    const fn with(value: &'static str, flag: Flag) -> Flag {
        Flag {
            value: Some(value),
            ..flag
        }
    }

    const fn needed(flag: Flag) -> Flag {
        Flag {
            needed: true,
            ..flag
        }
    }

    fn usage(&self) -> String {
        let value = self
            .value
            .map_or(String::new(), |value| format!(" {value}"));
        match self.needed {
            true => format!(" {}{value}", self.word),
            false => format!(" [{}{value}]", self.word),
        }
    }
}

const JSON: Flag = Flag::new("--json", "answer in JSON, for scripts");
const HTML: Flag = Flag::with(
    "FILE",
    Flag::new(
        "--html",
        "write the report to FILE as a page to read and print",
    ),
);
const NAMES: Flag = Flag::new("--names", "put names beside the row numbers");

/// All commands.
pub const COMMANDS: &[Command] = &[
    Command {
        name: "build",
        operands: &["POLICY"],
        options: &[Flag::needed(Flag::with(
            "BOOK",
            Flag::new("-o", "where the book goes"),
        ))],
        about: "make a book of a policy, and BOOK.names beside it",
    },
    Command {
        name: "check",
        operands: &["POLICY"],
        options: &[],
        about: "find the mistakes of a policy, and write nothing",
    },
    Command {
        name: "edit",
        operands: &["POLICY"],
        options: &[JSON],
        about: "add and delete rules line by line, and see which are idle",
    },
    Command {
        name: "show",
        operands: &["BOOK"],
        options: &[],
        about: "make a policy's text of a book",
    },
    Command {
        name: "report",
        operands: &["BOOK"],
        options: &[
            JSON,
            HTML,
            Flag::new("--exit-code", "end with status 3 where some rule is idle"),
        ],
        about: "which rules are idle and why, and what breaks each other one alone",
    },
    Command {
        name: "blocked",
        operands: &["BOOK"],
        options: &[
            JSON,
            HTML,
            Flag::new(
                "--exit-code",
                "end with status 3 where some rule is blocked",
            ),
        ],
        about: "which rules permit data that no operation opens to a user, and which close them",
    },
    Command {
        name: "labels",
        operands: &["BOOK"],
        options: &[JSON],
        about: "what no column or function gives, and which rules nothing can break for it",
    },
    Command {
        name: "judge",
        operands: &["BOOK", "USER", "PLAN"],
        options: &[JSON],
        about: "which rules a user and a plan break, and by what",
    },
    Command {
        name: "flows",
        operands: &["BOOK", "PLAN"],
        options: &[JSON],
        about: "what a plan gives away",
    },
    Command {
        name: "tree",
        operands: &["BOOK", "PLAN", "ROW"],
        options: &[JSON, NAMES],
        about: "what the value of a plan's row is made of, row by row, for the records",
    },
    Command {
        name: "encode",
        operands: &["BOOK", "PLAN"],
        options: &[Flag::with(
            "FILE",
            Flag::new(
                "-o",
                "write the plan's bytes, as a gateway takes them, to FILE",
            ),
        )],
        about: "make a plan's rows of its text, eight hexadecimal digits each",
    },
    Command {
        name: "decode",
        operands: &["BOOK", "ROW..."],
        options: &[],
        about: "make a plan's text of its rows",
    },
];

impl Command {
    /// How it is called.
    pub fn usage(&self) -> String {
        let operands: String = self
            .operands
            .iter()
            .map(|name| format!(" {name}"))
            .collect();
        let options: String = self.options.iter().map(Flag::usage).collect();
        format!("{}{operands}{options}", self.name)
    }

    /// How it is called, what it does, and its options.
    pub fn help(&self) -> String {
        let option = |flag: &Flag| format!("\n  {:12} {}", flag.word, flag.about);
        let options: String = self.options.iter().map(option).collect();
        let (usage, about) = (self.usage(), self.about);
        format!(
            "pspec-book {usage}\n\n  {about}{options}\n\n\
             'pspec-book help' has the texts of a policy and a plan and the exit status."
        )
    }
}

/// One line a command.
pub fn usage() -> String {
    let line = |command: &Command| {
        let usage = format!("pspec-book {}", command.usage());
        match usage.len() {
            0..=40 => format!("{usage:40} {}\n", command.about),
            _ => format!("{usage}\n{:40} {}\n", "", command.about),
        }
    };
    let lines: String = COMMANDS.iter().map(line).collect();
    format!(
        "{lines}{:40} the texts of a policy and a plan, the exit status\n\
         {:40} more on a command\n\
         {:40} the version of this program",
        "pspec-book help", "pspec-book COMMAND --help", "pspec-book --version"
    )
}

/// What the command line asks for.
#[derive(Debug, PartialEq, Eq)]
pub enum Asked {
    /// A command.
    Command(Arguments),
    /// Help, on a command or on all.
    Help(Option<&'static Command>),
    /// The program's version.
    Version,
}

/// A command with its operands and options.
#[derive(Debug, PartialEq, Eq)]
pub struct Arguments {
    /// The command.
    pub command: &'static Command,
    /// Its operands.
    pub operands: Vec<String>,
    options: Vec<(&'static str, String)>,
}

impl Arguments {
    /// Is JSON asked for?
    pub fn json(&self) -> bool {
        self.option(JSON.word).is_some()
    }

    /// Are names asked for?
    pub fn names(&self) -> bool {
        self.option(NAMES.word).is_some()
    }

    /// The value of an option that is given; empty for one without a value.
    pub fn option(&self, word: &str) -> Option<&str> {
        let option = self.options.iter().find(|(given, _)| *given == word);
        option.map(|(_, value)| value.as_str())
    }
}

/// Reads the words after the program's name; else what is wrong with them, and where help is.
pub fn read(words: &[String]) -> Result<Asked, String> {
    let Some((first, rest)) = words.split_first() else {
        return Err(format!("found no command\n\n{}", usage()));
    };
    match (first.as_str(), rest) {
        ("help" | "--help" | "-h", []) => return Ok(Asked::Help(None)),
        ("help" | "--help" | "-h", [name]) => return known(name).map(|one| Asked::Help(Some(one))),
        ("--version" | "-V", []) => return Ok(Asked::Version),
        _ => (),
    }
    let command = known(first)?;
    if rest.iter().any(|word| word == "--help" || word == "-h") {
        return Ok(Asked::Help(Some(command)));
    }
    let arguments = Arguments::of(command, rest).filter(Arguments::complete);
    arguments.map(Asked::Command).ok_or_else(|| {
        let (found, name) = (shown(&words.join(" ")), command.name);
        let usage = command.usage();
        format!("found '{found}'; expected {usage}\n'pspec-book {name} --help' says more")
    })
}

/// The number of a row; else what is wrong with the word, and where help is.
pub fn row(word: &str) -> Result<u32, String> {
    let digits = word.bytes().all(|digit| digit.is_ascii_digit());
    let row = word.parse().ok().filter(|_| digits);
    row.ok_or_else(|| {
        let found = shown(word);
        format!(
            "found '{found}'; expected the number of a row, 0 to 63\n\
             'pspec-book tree --help' says more"
        )
    })
}

fn known(name: &str) -> Result<&'static Command, String> {
    let command = COMMANDS.iter().find(|command| command.name == name);
    command.ok_or_else(|| {
        let found = shown(name);
        format!("found '{found}'; expected a command\n\n{}", usage())
    })
}

impl Arguments {
    /// Options may stand anywhere; after '--' there are none.
    fn of(command: &'static Command, words: &[String]) -> Option<Arguments> {
        let mut words = words.iter();
        let (mut operands, mut options) = (vec![], vec![]);
        while let Some(word) = words.next() {
            if word == "--" {
                operands.extend(words.by_ref().cloned());
            } else if word.len() > 1 && word.starts_with('-') {
                let flag = command.options.iter().find(|flag| flag.word == word)?;
                let value = match flag.value {
                    Some(_) => words.next()?.clone(),
                    None => String::new(),
                };
                options.push((flag.word, value));
            } else {
                operands.push(word.clone());
            }
        }
        Some(Arguments {
            command,
            operands,
            options,
        })
    }

    /// Is everything there that the command needs, and nothing twice?
    fn complete(&self) -> bool {
        let wanted = self.command.operands;
        let several = wanted.last().is_some_and(|name| name.ends_with("..."));
        let found = self.operands.len();
        let counted = found == wanted.len() || several && found > wanted.len();
        let given = |word: &str| self.options.iter().filter(|(it, _)| *it == word).count();
        let once = |flag: &Flag| (usize::from(flag.needed)..=1).contains(&given(flag.word));
        counted && self.command.options.iter().all(once)
    }
}
