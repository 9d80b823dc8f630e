//! The editor's lines: read one by one, and answered one by one.

use crate::edit_answer::{json, Done, NotDone};
use crate::editor::Editor;
use crate::fault::Fault;
use std::io::{self, BufRead, Write};

/// How lines are answered.
#[derive(Clone, Copy, Debug, PartialEq, Eq)]
pub enum Form {
    /// In words; what is wrong goes to the other output. On a terminal with a prompt before each line.
    Words {
        /// Whether there is a prompt.
        prompt: bool,
    },
    /// A line of JSON for each line.
    Json,
}

/// How the editor ends.
#[derive(Clone, Copy, Debug, PartialEq, Eq)]
pub enum Ended {
    /// Every line was carried out.
    Fine,
    /// Some line was not.
    SomeNotDone,
    /// The input ended, and edits are not written.
    Unwritten,
}

/// Where the answers go.
pub struct Outputs<'a> {
    /// The answers.
    pub out: &'a mut dyn Write,
    /// What is wrong.
    pub err: &'a mut dyn Write,
    /// How they are put.
    pub form: Form,
}

/// Carries out line after line, until one leaves or there is no more.
pub fn run(editor: &mut Editor, input: &mut dyn BufRead, to: &mut Outputs) -> Result<Ended, Fault> {
    let mut ended = Ended::Fine;
    to.start(editor).map_err(unsaid)?;
    for number in 1.. {
        to.prompt().map_err(unsaid)?;
        let Some(line) = next_line(input)? else {
            to.end().map_err(unsaid)?;
            break;
        };
        let answer = editor.carry_out(number, line);
        to.say(number, &answer).map_err(unsaid)?;
        match answer {
            Ok(Done::Left) => return Ok(ended),
            Ok(_) => (),
            Err(_) => ended = Ended::SomeNotDone,
        }
    }
    match editor.unwritten() {
        0 => Ok(ended),
        _ => {
            writeln!(to.err, "{}", editor.lost()).map_err(unsaid)?;
            Ok(Ended::Unwritten)
        }
    }
}

/// The bytes of the next line; none at the end of the input.
fn next_line(input: &mut dyn BufRead) -> Result<Option<Vec<u8>>, Fault> {
    let mut line = Vec::new();
    let read = input.read_until(b'\n', &mut line);
    let read = read.map_err(|why| Fault::File(format!("the input can't be read: {why}")))?;
    Ok((read > 0).then_some(line))
}

fn unsaid(why: io::Error) -> Fault {
    Fault::File(format!("the answer can't be written: {why}"))
}

impl Outputs<'_> {
    fn start(&mut self, editor: &Editor) -> io::Result<()> {
        match self.form {
            Form::Words { .. } => writeln!(self.out, "{}", editor.opened()),
            Form::Json => Ok(()),
        }
    }

    fn prompt(&mut self) -> io::Result<()> {
        if self.form == (Form::Words { prompt: true }) {
            write!(self.out, "> ")?;
        }
        self.out.flush()
    }

    /// Ends the line of a prompt that nothing came after.
    fn end(&mut self) -> io::Result<()> {
        match self.form {
            Form::Words { prompt: true } => writeln!(self.out),
            Form::Words { prompt: false } | Form::Json => Ok(()),
        }
    }

    fn say(&mut self, number: usize, answer: &Result<Done, NotDone>) -> io::Result<()> {
        match (self.form, answer) {
            (Form::Json, _) => writeln!(self.out, "{}", json(number, answer)),
            (_, Ok(done)) => match done.text() {
                Some(text) => writeln!(self.out, "{text}"),
                None => Ok(()),
            },
            (_, Err(why)) => writeln!(self.err, "{}", why.text()),
        }
    }
}
