//! `lampsickle`: a KeyNote query asked in plain text, the answer in plain text.
//! The answer itself is the proved library's.

mod arguments;
mod ask;
mod assertion;
mod batch;
mod could;
mod demand;
mod end;
mod explain;
mod help;
mod input;
mod journal;
mod json;
mod limit;
mod output;
mod place;
mod register;
mod report;
mod terminal;
mod text;
mod words;

use std::process::ExitCode;

use arguments::Words;
use end::{End, Trouble};

/// A command: what is behind its name on the command line is its own to read.
type Command = fn(Words) -> Result<End, Trouble>;

const COMMANDS: &[(&str, Command)] = &[
    ("ask", ask::run),
    ("explain", explain::run),
    ("batch", batch::run),
    ("journal", journal::run),
    ("register", register::run),
];

fn main() -> ExitCode {
    let status = match run(Words::given()) {
        Ok(end) => end.status(),
        Err(trouble) => {
            output::told(&trouble.words);
            trouble.status()
        }
    };
    ExitCode::from(status)
}

fn run(mut words: Words) -> Result<End, Trouble> {
    let Some(name) = words.next() else {
        return Err(Trouble::usage("no command; `lampsickle --help` tells which there are"));
    };
    if matches!(name.as_slice(), b"--help" | b"-h" | b"help") {
        return help::print();
    }
    match COMMANDS.iter().find(|(command, _)| command.as_bytes() == name) {
        Some((_, command)) => command(words),
        None => {
            let name = text::quoted(&name);
            Err(Trouble::usage(format!("{name} is no command; `lampsickle --help` tells which there are")))
        }
    }
}
