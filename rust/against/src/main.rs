//! Tries one engine against another on random books.

use against::compare::compare;
use against::engine::{by_name, USUAL};
use against::run::try_case;
use against::{run, text, Engine, Limit, Reached};
use std::io::{self, IsTerminal, Write};
use std::process::ExitCode;
use std::time::{Duration, Instant};

const USAGE: &str = "\
against [--seed S] [--seconds N | --cases N] [--left NAME] [--right NAME]
against --replay FILE [--left NAME] [--right NAME]

Runs random books against two engines and compares all answers and buffers. A difference is printed
as a text that --replay runs again, and the exit status is 1. Names: engine, second, naive.";

/// What the command line asks for.
struct Asked {
    seed: u64,
    limit: Limit,
    names: [String; 2],
    replay: Option<String>,
}

fn main() -> ExitCode {
    let asked = match asked(std::env::args().skip(1)) {
        Ok(asked) => asked,
        Err(why) => {
            eprintln!("{why}\n\n{USAGE}");
            return ExitCode::from(2);
        }
    };
    match act(&asked) {
        Ok(report) => {
            println!("{report}");
            ExitCode::SUCCESS
        }
        Err(why) => {
            println!("{why}");
            ExitCode::FAILURE
        }
    }
}

fn asked(mut words: impl Iterator<Item = String>) -> Result<Asked, String> {
    let mut asked = Asked {
        seed: 1,
        limit: Limit::Cases(20_000),
        names: USUAL.map(str::to_string),
        replay: None,
    };
    while let Some(word) = words.next() {
        let value = words.next().ok_or(format!("{word} has no value"))?;
        let number = || value.parse::<u64>().map_err(|e| format!("{word}: {e}"));
        match word.as_str() {
            "--seed" => asked.seed = number()?,
            "--seconds" => asked.limit = Limit::Time(Duration::from_secs(number()?)),
            "--cases" => asked.limit = Limit::Cases(number()?),
            "--left" => asked.names[0] = value,
            "--right" => asked.names[1] = value,
            "--replay" => asked.replay = Some(value),
            _ => return Err(format!("no option {word}")),
        }
    }
    Ok(asked)
}

fn act(asked: &Asked) -> Result<String, String> {
    let engine = |name: &String| by_name(name).ok_or(format!("no engine {name}"));
    let [left, right] = [engine(&asked.names[0])?, engine(&asked.names[1])?];
    let engines = [left.as_ref(), right.as_ref()];
    match &asked.replay {
        Some(file) => replay(engines, file),
        None => random(engines, asked),
    }
}

fn replay(engines: [&dyn Engine; 2], file: &str) -> Result<String, String> {
    let read = std::fs::read_to_string(file).map_err(|e| format!("{file}: {e}"))?;
    let case = text::read(&read)?;
    let answers = compare(engines, &case).map_err(|difference| difference.to_string())?;
    // Both may say what the documents rule out.
    try_case(engines, &case, &mut Reached::default())
        .map_err(|difference| difference.to_string())?;
    let line = |i: usize| format!("{}: {}", engines[i].name(), answers[i]);
    Ok(format!("{}\n{}", line(0), line(1)))
}

fn random(engines: [&dyn Engine; 2], asked: &Asked) -> Result<String, String> {
    let [left, right] = engines.map(|engine| engine.name());
    println!("{left} against {right}, seed {}", asked.seed);
    let mut shown = Progress::new();
    let result = run(engines, asked.seed, asked.limit, &mut |reached| {
        shown.show(reached)
    });
    shown.clear();
    match result {
        Ok(reached) => Ok(format!("{reached}\nno difference")),
        Err(difference) => Err(format!("# a difference\n{difference}")),
    }
}

/// One line that is written over, on a terminal only.
struct Progress {
    terminal: bool,
    last: Instant,
}

impl Progress {
    fn new() -> Progress {
        Progress {
            terminal: io::stderr().is_terminal(),
            last: Instant::now(),
        }
    }

    fn show(&mut self, reached: &Reached) {
        if self.terminal && self.last.elapsed() > Duration::from_millis(200) {
            self.last = Instant::now();
            let missing = reached.not_reached();
            eprint!(
                "\r\x1b[K{} cases, refusals to reach: {missing:?}",
                reached.cases
            );
            let _ = io::stderr().flush();
        }
    }

    fn clear(&self) {
        if self.terminal {
            eprint!("\r\x1b[K");
        }
    }
}
